"""Compares the state that the page reads from state texts with the Python device that is opened
from the same texts: page_states.py STATES. page_states.mjs writes STATES.
"""

import json
import pathlib
import sys

from tpmsim.explain.words import index_type_words
from tpmsim.explain.words import algorithm_words, bytes_words, command_words, flag_words
from tpmsim.explain.words import handle_words, localities_words, seconds_words, SESSIONS
from tpmsim.model.state_text import open_state
from tpmsim.standard import AES, ALG_NULL, nv, objects, policy, SE_HMAC
from tpmsim.standard import RH_ENDORSEMENT, RH_LOCKOUT, RH_OWNER, RH_PLATFORM

SAVED = "nothing", "Shutdown(CLEAR)", "Shutdown(STATE)"
KIND_BITS = nv.TYPE_MASK << nv.TYPE_SHIFT
DEMANDS = {
    None: "",
    policy.AUTH_VALUE: "the authorization value, in an HMAC",
    policy.PASSWORD: "the authorization value, as a password",
}


def pcrs(model):
    if not model.started:
        return {}
    banks = {algorithm_words(it): values for it, values in model.banks.items()}
    found = {
        f"PCR {pcr}": {name: values[pcr].hex() for name, values in banks.items()}
        for pcr in range(24)
    }
    return found | {"": {"update counter": f"{model.update_counter:,}"}}


def cipher_words(session):
    if session.cipher == ALG_NULL:
        return "none"
    if session.cipher == AES:
        return "AES-128 CFB"
    return f"XOR, masks of {algorithm_words(session.masks)}"


def session_values(session):
    told, is_hmac = session.policy, session.kind == SE_HMAC
    counter = told.update_counter
    written = (
        None
        if told.nv_written is None
        else "must be written"
        if told.nv_written
        else "must not be written"
    )
    all_values = {
        "kind": SESSIONS[session.kind],
        "hash": algorithm_words(session.algorithm),
        "encrypts by": cipher_words(session),
        "nonceTPM": session.nonce_tpm.hex(),
        "session key": session.key.hex() or "empty",
        "bound to the Name": session.bind.hex() if session.is_bound else None,
        "policy digest": None if is_hmac else told.digest.hex(),
        "command": None if told.code is None else command_words(told.code),
        "cpHash": told.cp_hash and told.cp_hash.hex(),
        "index": written,
        "localities": None
        if told.localities == policy.ALL_LOCALITIES
        else localities_words(told.localities),
        "update counter": None if counter is None else f"{counter:,}, at TPM2_PolicyPCR",
        "demands": DEMANDS[told.demand],
    }
    return {name: text for name, text in all_values.items() if text}


def object_values(held):
    public = held.public
    return {
        "type": algorithm_words(public.kind),
        "hierarchy": handle_words(held.hierarchy),
        "attributes": flag_words(public.attributes, objects.Attribute),
        "authValue": bytes_words(held.sensitive.auth_value),
        "authPolicy": public.auth_policy.hex() or "empty",
    }


def index_values(index):
    public = index.public
    return {
        "type": index_type_words(public.kind),
        "attributes": flag_words(public.attributes & ~KIND_BITS, nv.Attribute),
        "authValue": bytes_words(index.auth_value),
        "authPolicy": public.auth_policy.hex() or "empty",
        "size": f"{public.data_size:,} bytes",
        "data": bytes_words(index.data) if index.data else "not written",
    }


def hierarchies(model):
    all_of_them = RH_OWNER, RH_ENDORSEMENT, RH_PLATFORM, RH_LOCKOUT
    found = {
        handle_words(it): {"authValue": bytes_words(model.auth_value(it))} for it in all_of_them
    }
    return found | {"TPM2_Clear": {"disabled": "yes" if model.disable_clear else "no"}}


def lockout(model):
    it = model.lockout
    return {
        "failed tries": f"{it.failed_tries:,} of {it.max_tries:,}",
        "one is forgiven after": f"{it.recovery_time:,} s",
        "lockoutAuth closes for": f"{it.lockout_recovery:,} s",
        "lockoutAuth": "closed" if it.is_closed else "open",
    }


def clock(model):
    return {
        "started": "yes" if model.started else "no: it waits for TPM2_Startup",
        "Time": seconds_words(model.time),
        "Clock": seconds_words(model.clock),
        "resetCount": f"{model.reset_count:,}",
        "restartCount": f"{model.restart_count:,}",
        "saved": SAVED[int(model.saved)],
    }


def of_handles(held, values):
    return {f"{handle:08x}": values(held[handle]) for handle in sorted(held)}


def groups_of(model):
    return {
        "PCRs": pcrs(model),
        "Sessions": of_handles(model.sessions, session_values),
        "Objects": of_handles(model.objects, object_values),
        "NV indices": of_handles(model.indices, index_values),
        "Hierarchies": hierarchies(model),
        "Lockout": {"": lockout(model)},
        "Clock": {"": clock(model)},
    }


def main():
    count = wrong = 0
    for line in pathlib.Path(sys.argv[1]).read_text("utf-8").splitlines():
        text, read = json.loads(line)
        model, _ = open_state(bytes.fromhex(text))
        own = {group: {of: dict(values) for of, values in those} for group, those in read}
        wanted = groups_of(model)
        count += 1
        if own == wanted:
            continue
        wrong += 1
        if wrong <= 3:
            for group in wanted:
                if own[group] != wanted[group]:
                    print(f"{group}: {own[group]}\n    wanted {wanted[group]}")
    print(
        "hundreds of states" if count > 300 else f"{count} states", f"are read otherwise: {wrong}"
    )
    sys.exit(1 if wrong else 0)


if __name__ == "__main__":
    main()
