/* The names of response codes and of commands (TPM 2.0 Library, Part 2, sections 6.6.3 and 6.5.2), without TPM_RC_ and
   TPM2_. tools/generated.py writes this file; do not change it. */
#ifndef TPMSIM_NAMES_H
#define TPMSIM_NAMES_H

#include <stdint.h>
#include <stdio.h>

/* The size of a buffer for tpmsim_code_text. */
enum { TPMSIM_CODE_TEXT_SIZE = 40 };

/* Returns the name of a response code without the handle, parameter or session to which it refers, such as
   "AUTH_FAIL" for 0x98e; or "unknown" for a code that tpmsim never returns. */
static inline const char *tpmsim_code_name(uint32_t code) {
    switch (code & 0x080 ? code & 0x0bf : code) {
    case 0x000: return "SUCCESS";
    case 0x01e: return "BAD_TAG";
    case 0x082: return "ATTRIBUTES";
    case 0x083: return "HASH";
    case 0x084: return "VALUE";
    case 0x085: return "HIERARCHY";
    case 0x089: return "MODE";
    case 0x08a: return "TYPE";
    case 0x08b: return "HANDLE";
    case 0x08d: return "RANGE";
    case 0x08e: return "AUTH_FAIL";
    case 0x08f: return "NONCE";
    case 0x092: return "SCHEME";
    case 0x095: return "SIZE";
    case 0x096: return "SYMMETRIC";
    case 0x09a: return "INSUFFICIENT";
    case 0x09c: return "KEY";
    case 0x09d: return "POLICY_FAIL";
    case 0x09f: return "INTEGRITY";
    case 0x0a1: return "RESERVED_BITS";
    case 0x0a2: return "BAD_AUTH";
    case 0x0a4: return "POLICY_CC";
    case 0x100: return "INITIALIZE";
    case 0x101: return "FAILURE";
    case 0x120: return "DISABLED";
    case 0x125: return "AUTH_MISSING";
    case 0x126: return "POLICY";
    case 0x128: return "PCR_CHANGED";
    case 0x12f: return "AUTH_UNAVAILABLE";
    case 0x142: return "COMMAND_SIZE";
    case 0x143: return "COMMAND_CODE";
    case 0x144: return "AUTHSIZE";
    case 0x145: return "AUTH_CONTEXT";
    case 0x146: return "NV_RANGE";
    case 0x148: return "NV_LOCKED";
    case 0x149: return "NV_AUTHORIZATION";
    case 0x14a: return "NV_UNINITIALIZED";
    case 0x14b: return "NV_SPACE";
    case 0x14c: return "NV_DEFINED";
    case 0x151: return "CPHASH";
    case 0x902: return "OBJECT_MEMORY";
    case 0x903: return "SESSION_MEMORY";
    case 0x907: return "LOCALITY";
    case 0x910: return "REFERENCE_H0";
    case 0x911: return "REFERENCE_H1";
    case 0x912: return "REFERENCE_H2";
    case 0x918: return "REFERENCE_S0";
    case 0x919: return "REFERENCE_S1";
    case 0x91a: return "REFERENCE_S2";
    case 0x921: return "LOCKOUT";
    default: return "unknown";
    }
}

/* Writes a response code as text, such as "AUTH_FAIL/s1 (98E)", and returns the text. */
static inline const char *tpmsim_code_text(uint32_t code, char text[TPMSIM_CODE_TEXT_SIZE]) {
    const char *name = tpmsim_code_name(code);
    unsigned number = (unsigned)code, place = number >> 8 & 0xf;

    if (number == 0)
        snprintf(text, TPMSIM_CODE_TEXT_SIZE, "%s", name);
    else if (!(number & 0x080) || number < 0x100)
        snprintf(text, TPMSIM_CODE_TEXT_SIZE, "%s (%03X)", name, number);
    else if (number & 0x040)
        snprintf(text, TPMSIM_CODE_TEXT_SIZE, "%s/p%u (%03X)", name, place, number);
    else
        snprintf(text, TPMSIM_CODE_TEXT_SIZE, "%s/%c%u (%03X)", name, place & 8 ? 's' : 'h', place & 7, number);
    return text;
}

/* Returns the name of a command, implemented or not, such as "RSA_Decrypt" for 0x159; or "unknown command". */
static inline const char *tpmsim_command_name(uint32_t command) {
    switch (command) {
    case 0x11f: return "NV_UndefineSpaceSpecial";
    case 0x120: return "EvictControl";
    case 0x121: return "HierarchyControl";
    case 0x122: return "NV_UndefineSpace";
    case 0x124: return "ChangeEPS";
    case 0x125: return "ChangePPS";
    case 0x126: return "Clear";
    case 0x127: return "ClearControl";
    case 0x128: return "ClockSet";
    case 0x129: return "HierarchyChangeAuth";
    case 0x12a: return "NV_DefineSpace";
    case 0x12b: return "PCR_Allocate";
    case 0x12c: return "PCR_SetAuthPolicy";
    case 0x12d: return "PP_Commands";
    case 0x12e: return "SetPrimaryPolicy";
    case 0x12f: return "FieldUpgradeStart";
    case 0x130: return "ClockRateAdjust";
    case 0x131: return "CreatePrimary";
    case 0x132: return "NV_GlobalWriteLock";
    case 0x133: return "GetCommandAuditDigest";
    case 0x134: return "NV_Increment";
    case 0x135: return "NV_SetBits";
    case 0x136: return "NV_Extend";
    case 0x137: return "NV_Write";
    case 0x138: return "NV_WriteLock";
    case 0x139: return "DictionaryAttackLockReset";
    case 0x13a: return "DictionaryAttackParameters";
    case 0x13b: return "NV_ChangeAuth";
    case 0x13c: return "PCR_Event";
    case 0x13d: return "PCR_Reset";
    case 0x13e: return "SequenceComplete";
    case 0x13f: return "SetAlgorithmSet";
    case 0x140: return "SetCommandCodeAuditStatus";
    case 0x141: return "FieldUpgradeData";
    case 0x142: return "IncrementalSelfTest";
    case 0x143: return "SelfTest";
    case 0x144: return "Startup";
    case 0x145: return "Shutdown";
    case 0x146: return "StirRandom";
    case 0x147: return "ActivateCredential";
    case 0x148: return "Certify";
    case 0x149: return "PolicyNV";
    case 0x14a: return "CertifyCreation";
    case 0x14b: return "Duplicate";
    case 0x14c: return "GetTime";
    case 0x14d: return "GetSessionAuditDigest";
    case 0x14e: return "NV_Read";
    case 0x14f: return "NV_ReadLock";
    case 0x150: return "ObjectChangeAuth";
    case 0x151: return "PolicySecret";
    case 0x152: return "Rewrap";
    case 0x153: return "Create";
    case 0x154: return "ECDH_ZGen";
    case 0x155: return "HMAC";
    case 0x156: return "Import";
    case 0x157: return "Load";
    case 0x158: return "Quote";
    case 0x159: return "RSA_Decrypt";
    case 0x15b: return "HMAC_Start";
    case 0x15c: return "SequenceUpdate";
    case 0x15d: return "Sign";
    case 0x15e: return "Unseal";
    case 0x160: return "PolicySigned";
    case 0x161: return "ContextLoad";
    case 0x162: return "ContextSave";
    case 0x163: return "ECDH_KeyGen";
    case 0x164: return "EncryptDecrypt";
    case 0x165: return "FlushContext";
    case 0x167: return "LoadExternal";
    case 0x168: return "MakeCredential";
    case 0x169: return "NV_ReadPublic";
    case 0x16a: return "PolicyAuthorize";
    case 0x16b: return "PolicyAuthValue";
    case 0x16c: return "PolicyCommandCode";
    case 0x16d: return "PolicyCounterTimer";
    case 0x16e: return "PolicyCpHash";
    case 0x16f: return "PolicyLocality";
    case 0x170: return "PolicyNameHash";
    case 0x171: return "PolicyOR";
    case 0x172: return "PolicyTicket";
    case 0x173: return "ReadPublic";
    case 0x174: return "RSA_Encrypt";
    case 0x176: return "StartAuthSession";
    case 0x177: return "VerifySignature";
    case 0x178: return "ECC_Parameters";
    case 0x179: return "FirmwareRead";
    case 0x17a: return "GetCapability";
    case 0x17b: return "GetRandom";
    case 0x17c: return "GetTestResult";
    case 0x17d: return "Hash";
    case 0x17e: return "PCR_Read";
    case 0x17f: return "PolicyPCR";
    case 0x180: return "PolicyRestart";
    case 0x181: return "ReadClock";
    case 0x182: return "PCR_Extend";
    case 0x183: return "PCR_SetAuthValue";
    case 0x184: return "NV_Certify";
    case 0x185: return "EventSequenceComplete";
    case 0x186: return "HashSequenceStart";
    case 0x187: return "PolicyPhysicalPresence";
    case 0x188: return "PolicyDuplicationSelect";
    case 0x189: return "PolicyGetDigest";
    case 0x18a: return "TestParms";
    case 0x18b: return "Commit";
    case 0x18c: return "PolicyPassword";
    case 0x18d: return "ZGen_2Phase";
    case 0x18e: return "EC_Ephemeral";
    case 0x18f: return "PolicyNvWritten";
    case 0x190: return "PolicyTemplate";
    case 0x191: return "CreateLoaded";
    case 0x192: return "PolicyAuthorizeNV";
    case 0x193: return "EncryptDecrypt2";
    case 0x194: return "AC_GetCapability";
    case 0x195: return "AC_Send";
    case 0x196: return "Policy_AC_SendSelect";
    case 0x197: return "CertifyX509";
    case 0x198: return "ACT_SetTimeout";
    case 0x199: return "ECC_Encrypt";
    case 0x19a: return "ECC_Decrypt";
    case 0x19b: return "PolicyCapability";
    case 0x19c: return "PolicyParameters";
    case 0x19d: return "NV_DefineSpace2";
    case 0x19e: return "NV_ReadPublic2";
    case 0x19f: return "SetCapability";
    default: return "unknown command";
    }
}

#endif
