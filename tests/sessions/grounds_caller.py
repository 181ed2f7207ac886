"""A caller for grounds.py, lost_grounds.py and replays.py. It creates sealed objects and NV indices
with the authorization value "pin", and with policies.
"""

from tpmsim.caller import area, HERE, sealed
from tpmsim.model.capability import LOCKOUT_COUNTER, PROPERTIES
from tpmsim.standard import CC, digest, digest_bytes, frames, number, policy, RH_OWNER, RH_PLATFORM
from tpmsim.standard import SHA256
from tests.common.policy_teller import PolicyTeller

OWNER, PIN, SECRET, DATA = b"owner", b"pin", b"secret", b"8 bytes."
PCR_16 = [(SHA256, [16])]
AT_LOCALITY_1 = 0b10

# The initial policyDigest of a session, and its policyDigest after an assertion of each kind.
ZEROS = bytes(32)
AFTER_AUTH_VALUE = policy.after_auth_value(SHA256, ZEROS)
AFTER_PCR_16 = policy.after_pcr(SHA256, ZEROS, frames.selection(*PCR_16), digest(SHA256, bytes(32)))
AFTER_LOCALITY_1 = policy.after_locality(SHA256, ZEROS, AT_LOCALITY_1)


def after_code(code, algorithm=SHA256):
    return policy.after_command_code(algorithm, bytes(digest_bytes(algorithm)), code)


def after_secret(name, policy_ref=b""):
    return policy.after_secret(SHA256, ZEROS, name, policy_ref)


def after_equal_data(name, old=ZEROS):
    """Returns the digest after a TPM2_PolicyNV that requires the index with this Name to contain
    `DATA`.
    """
    compared = frames.policy_nv(DATA)[2:]  # without the size that precedes DATA
    return policy.after_nv(SHA256, old, compared, name)


class GroundsCaller(PolicyTeller):
    def __init__(self, name, told, **choices):
        super().__init__(name, told, **choices)
        self.free_indices = iter(range(0x0100_0001, 0x0100_0020))

    # Methods for entities.

    def sealed_object(
        self, what, auth_policy=b"", attributes=HERE, algorithm=SHA256, value=PIN, by=RH_PLATFORM
    ):
        """Creates sealed data, and returns its handle. Data in the platform hierarchy survives
        TPM2_Clear.
        """
        template = sealed(algorithm, attributes, auth_policy=auth_policy)
        return self.create_primary(what, by, template, user_auth=value, data=SECRET)

    def index(self, what, attributes, auth_policy=b"", value=PIN):
        """Defines an index for the owner, and returns its handle."""
        public = area(next(self.free_indices), attributes, auth_policy=auth_policy)
        return self.define(what, public, auth=value)

    def written_index(self, what, attributes, auth_policy=b""):
        """Defines an index, which the owner then writes. Returns its handle."""
        index = self.index(what, attributes, auth_policy)
        self.does("", self.writing(index, DATA, by=RH_OWNER))
        return index

    def flushed_new(self, what, primary):
        """Creates a primary object, which must succeed, and flushes it."""
        handle, _ = self.accepted(what, primary)
        self.says("SUCCESS", self.flush(handle))

    def flushed(self, *those):
        """Flushes sessions and objects. Each object is named by its handle."""
        objects = [it for it in those if isinstance(it, int)]
        name = "object" if len(objects) == len(those) else "session"
        what = "They are flushed" if len(those) > 1 else f"The {name} is flushed"
        self.says(f"{what}: SUCCESS", *map(self.flush, those))
        self.forget(*objects)

    # Methods that make assertions in a policy session.

    def asserts(self, what, *told):
        """Makes the assertions `told` in this order."""
        self.says(f"{what}: SUCCESS", *told)

    def asserts_code(self, session, code=CC.Unseal):
        told = self.command_code(session, code)
        self.asserts(f"TPM2_PolicyCommandCode of TPM2_{code.name}", told)

    def asserts_value(self, session):
        self.asserts("TPM2_PolicyAuthValue", self.auth_value_told(session))

    def asserts_password(self, session):
        self.asserts("TPM2_PolicyPassword", self.password_told(session))

    # Methods that send commands.

    def tries_are(self, what, tries):
        """Checks the number of failed tries with TPM2_GetCapability."""
        asked = self.capability(PROPERTIES, LOCKOUT_COUNTER, 1)
        others_follow, given = b"\1", number(LOCKOUT_COUNTER, 4) + number(tries, 4)
        wanted = others_follow + number(PROPERTIES, 4) + number(1, 4) + given
        answer = self.does(f"{what}. TPM2_GetCapability|which answers {tries}", asked)
        assert answer == wanted, what

    def refused_by(self, check, words, *prepared):
        """Sends commands that this check must refuse."""
        self.fails(words, *prepared)
        for played in self.script.played[-len(prepared) :]:
            assert played.outcome.row.check == check, words

    def lost(self, words, *prepared):
        """Sends commands that must be refused by G9, which checks the entries that authorize."""
        self.refused_by("G9", words, *prepared)
