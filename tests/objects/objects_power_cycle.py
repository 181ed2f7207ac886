"""Makes objects_power_cycle.tpm. A power cycle removes transient objects. The seeds of the
owner's, the endorsement and the platform hierarchy stay, so that the same primary objects can be
made again. The null hierarchy has a new seed and a new proof after each TPM2_Startup(CLEAR).
"""

from tests.common.steps import HIERARCHIES, Steps
from tests.common.vocabulary import hmac_key, RH_NULL, RH_OWNER, sealed, SHA1, STATE, storage_key

tpm = Steps(__name__, __doc__, starts=False)


def start(what, seed):
    tpm.chapter(what)
    tpm.script.entropy(seed)
    tpm.startup()


def primaries():
    """Creates a storage key in each hierarchy, and a child of each key. Returns the keys' Names and
    the children.
    """
    names, children = {}, {}
    for hierarchy, name in HIERARCHIES:
        with tpm.held(f"A storage key in {name}", storage_key(), hierarchy=hierarchy) as handle:
            names[hierarchy] = tpm.names[handle]
            said = tpm("TPM2_Create of sealed data")
            children[hierarchy] = said.create(handle, sealed(), data=b"secret")
    return names, children


def tickets():
    """Returns the creation tickets of two hierarchies."""
    found = {}
    for hierarchy, name in (HIERARCHIES[0], HIERARCHIES[3]):
        with tpm.held(f"A key in {name}", hmac_key(), hierarchy=hierarchy, data=b"key"):
            found[hierarchy] = tpm.ticket
    return found


start("The first start.", bytes(range(64)))
names, children = primaries()
first_tickets = tickets()
handles = [
    tpm.create_primary(f"An object in {name}", hierarchy, hmac_key(SHA1), data=b"key")
    for hierarchy, name in HIERARCHIES
]
tpm.power()
tpm("Before TPM2_Startup: INITIALIZE").public(handles[0])
tpm.chapter("A refused TPM2_Startup draws nothing, and starts nothing.")
tpm.script.entropy(bytes(range(128, 192)))
tpm("TPM2_Startup(STATE), while no state is saved: VALUE/p1").starting(STATE)
start("The second start, with other random bytes.", bytes(range(64, 128)))
tpm.forget(*handles)
tpm.says("The objects are gone: REFERENCE_H0", *map(tpm.public, handles))
tpm.says("The objects cannot be flushed: HANDLE/p1", *map(tpm.flush, handles))

again, _ = primaries()
for hierarchy, _ in HIERARCHIES:
    assert (again[hierarchy] == names[hierarchy]) == (hierarchy != RH_NULL)
second_tickets = tickets()
assert first_tickets[RH_OWNER] == second_tickets[RH_OWNER]
assert first_tickets[RH_NULL] != second_tickets[RH_NULL]

tpm.chapter("Objects created before the power cycle are loaded under the same primary object.")
for hierarchy, name in HIERARCHIES:
    said = tpm(f"The storage key in {name}")
    with said.held(storage_key(), hierarchy=hierarchy, flushed="The parent is flushed") as handle:
        made = children[hierarchy]
        if hierarchy == RH_NULL:
            tpm("TPM2_Load: it is another one: INTEGRITY/p1").loading(handle, made)
            continue
        with tpm.loaded("TPM2_Load", handle, made) as child:
            tpm.unseal("TPM2_Unseal", child, b"secret")

tpm.power()
start("The third start, with the random bytes of the first.", bytes(range(64)))
third, _ = primaries()
assert third == names
tpm.chapter("The null hierarchy is that of the first start, as the same bytes were drawn.")
handle = tpm.create_primary("A storage key in TPM_RH_NULL", RH_NULL, storage_key())
child = tpm.load("TPM2_Load of what was created at the first start", handle, children[RH_NULL])
tpm.unseal("TPM2_Unseal", child, b"secret")
assert tickets() == first_tickets
