"""Tests commands that are called by name: an example of each command, the types of its response,
words as values, exceptions that name the field, and policies in words that are refused.
"""

import builtins
import contextlib
import functools
import importlib
import inspect
import io
import pathlib
import pkgutil
import sys
import unittest

import tpmsim
from tpmsim import BadValue, TpmsimError
from tpmsim.caller import area, Caller, calls, Refused, sealed, short_names, storage_key
from tpmsim.caller.examples import EXAMPLES, INDEX, Scene
from tpmsim.device import Device, ModelDevice
from tpmsim.device.base import Executed
from tpmsim.explain.dissection import fields_of_command
from tpmsim.standard import CC, frames, given, lines, NUMBERED, nv, objects, RH_OWNER, SHA1
from tpmsim.standard import SHA256, sized
from tpmsim.standard import values

PACKAGE = pathlib.Path(__file__).resolve().parents[1]
sys.path.append(str(PACKAGE / "packing"))
import call_types
import tpmsim_wheel

# The packages for users. All public functions in them have a docstring.
FOR_PEOPLE = "caller", "device", "policies", "records", "script", "standard", "faults"

# The modules that need pytest.
OF_PYTEST = "tpmsim.pytest_plugin", "tpmsim.sweep.in_tests"


def modules(*packages):
    """Yields the modules of these packages, or all modules that need no package outside Python's
    standard library.
    """
    for it in pkgutil.walk_packages(tpmsim.__path__, "tpmsim."):
        if it.name not in OF_PYTEST and (not packages or it.name.split(".")[1] in packages):
            yield importlib.import_module(it.name)


def defined(module, is_wanted):
    """Yields what a module itself defines, without its imports."""
    for _, it in inspect.getmembers(module, is_wanted):
        if it.__module__ == module.__name__:
            yield it


def played(kind):
    """Plays each example on a device of this kind. Yields the commands and their responses."""
    with kind(seed=b"seed") as device:
        scene = Scene.on(device)
        before = device.snapshot()
        known = {name: dict(it) for name, it in vars(scene.tpm).items() if isinstance(it, dict)}
        for example in EXAMPLES.values():
            prepared = example(scene)
            yield prepared, scene.tpm.send(prepared)
            device.restore(before)
            vars(scene.tpm).update({name: dict(it) for name, it in known.items()})


class Examples(unittest.TestCase):
    """An example of each command."""

    def test_each(self):
        """Two devices accept each example, and each field has the type that the stub declares."""
        self.assertEqual(set(EXAMPLES), set(NUMBERED.values()))
        for (prepared, here), (_, there) in zip(played(Device), played(ModelDevice)):
            with self.subTest(prepared.code.name):
                self.check_answer(prepared.code, here)
                self.assertEqual(len(here.parameters), len(there.parameters))

    def check_answer(self, code, response):
        self.assertEqual(type(response).__name__, f"{code.name}Response")
        for it in code.answered_handles:
            self.assertEqual(getattr(response, it.name), response.handle)
        for it in code.answered_parameters:
            self.check_field(response, it)

    def check_field(self, response, parameter):
        name = parameter.name
        item, value = response[name], getattr(response, name)
        wanted = call_types.answered(parameter).partition("[")[0]
        self.assertIs(type(item), getattr(builtins, wanted, getattr(values, wanted, None)))
        if name in calls.STRUCTURES:
            self.assertIn(type(value), (objects.Public, nv.Public))
            self.assertEqual(value.text, item)
        else:
            self.assertEqual(value, item)

    def test_lines(self):
        """Each example has a line, which assembles to the same bytes. The fields of the buffer
        cover all of its bytes.
        """
        for prepared, _ in played(ModelDevice):
            with self.subTest(prepared.code.name):
                buffer = prepared.buffer()
                self.assertEqual(lines.assemble(lines.line_of(buffer).encode()), buffer)
                shown = sum(
                    it.front if it.is_group else it.size for it in fields_of_command(buffer)
                )
                self.assertEqual(shown, len(buffer))

    def test_wrong_values(self):
        """A wrong value of any parameter or handle raises ValueError with the field's name."""
        for prepared, _ in played(ModelDevice):
            code, handles = prepared.code, prepared.handles
            arguments = values.read_all(code.parameters, prepared.parameters)
            for name in arguments:
                for wrong in (object(), "x", -1, 1.5, None, 2**64):
                    self.check_fault(name, code, handles, {**arguments, name: wrong})
            for at, handle in enumerate(code.handles):
                others = [*handles[:at], "x", *handles[at + 1 :]]
                self.check_fault(handle.name, code, others, arguments)

    def check_fault(self, name, code, handles, arguments):
        with self.subTest(code.name, name=name, value=arguments.get(name)):
            with self.assertRaisesRegex(ValueError, f"^{name} takes ") as caught:
                calls.Commands().command(code, *handles, **arguments)
            self.assertEqual(caught.exception.field, name)


class ShortNames(unittest.TestCase):
    """Commands by their short names."""

    def test_each(self):
        """By its short name, each command is the same as by its name in Part 3."""
        examples = {prepared.code: prepared for prepared, _ in played(ModelDevice)}
        for name, code in short_names.COMMANDS.items():
            wanted = examples.pop(code)
            arguments = values.read_all(code.parameters, wanted.parameters).values()
            found = dict(zip(short_names.names_of(code), (*wanted.handles, *arguments)))
            named = {it: found.pop(it) for it in short_names.DEFAULTS.get(code, {})}
            again = getattr(calls.Commands(), name)(*found.values(), *wanted.uses, **named)
            with self.subTest(name):
                self.assertEqual(again.buffer(), wanted.buffer())

    def test_defaults(self):
        """Arguments that are left out have their default values."""
        tpm = calls.Commands()
        wanted = tpm.command("NV_Read", INDEX, INDEX, size=8, offset=0)
        self.assertEqual(tpm.reading(INDEX, 8), wanted)
        wanted = tpm.command("NV_Read", "OWNER", INDEX, size=8, offset=3)
        self.assertEqual(tpm.reading(INDEX, 8, by="OWNER", offset=3), wanted)
        public = area()
        wanted = tpm.command("NV_DefineSpace", "OWNER", auth=b"", publicInfo=public)
        self.assertEqual(tpm.defining(public), wanted)
        self.assertEqual(tpm.lock_reset(), tpm.command("DictionaryAttackLockReset", "LOCKOUT"))

    def test_faults(self):
        """A missing argument, a wrong name and a missing handle raise TypeError."""
        tpm = calls.Commands()
        self.assertRaises(TypeError, tpm.reading, INDEX)
        self.assertRaises(TypeError, tpm.reading, INDEX, 8, of=RH_OWNER)
        self.assertRaises(TypeError, tpm.command, "NV_Read", INDEX, size=8, offset=0)
        self.assertRaises(AttributeError, getattr, tpm, "reads")

    def test_sessions(self):
        """A session may stand for its handle, as a handle and as a parameter."""
        with ModelDevice() as device:
            tpm = Caller(device)
            tpm.start_up()
            session = tpm.session()
            wanted = tpm.command("FlushContext", flushHandle=session.handle)
            self.assertEqual(tpm.command("FlushContext", flushHandle=session), wanted)
            self.assertEqual(tpm.flush(session), wanted)


class Words(unittest.TestCase):
    """Words have the same meaning as numbers."""

    def test_attributes(self):
        public = area(attributes="ownerread|OWNER_WRITE|nt=counter|no_da", algorithm="sha1")
        wanted = nv.Attribute.OWNERREAD | nv.Attribute.OWNERWRITE | nv.Attribute.NO_DA
        self.assertEqual(public, area(attributes=wanted, kind=nv.Type.COUNTER, algorithm=SHA1))
        self.assertEqual(nv.attributes_of(public.words), public.attributes)
        data = sealed("sha256", "fixedtpm|fixedparent|userwithauth|noda")
        self.assertEqual(data, sealed())
        self.assertEqual(objects.attributes_of(data.words), data.attributes)
        self.assertEqual(area(attributes=nv.of_type(5)).words.partition("|")[0], "")
        with self.assertRaisesRegex(ValueError, "attributes takes words of ppwrite, .* not 'x'"):
            area(attributes="ownerread|x")
        with self.assertRaisesRegex(ValueError, "algorithm takes .* not 'sha3'"):
            storage_key("sha3")

    def test_structures(self):
        """If a field of a structure does not fit, the exception names that field."""
        for name, public in (
            ("data_size", area(size=70_000)),
            ("auth_policy", area(auth_policy="x")),
            ("attributes", nv.Public(INDEX, SHA256, -1)),
            ("unique", sealed(unique=bytes(2**16))),
            ("user_auth", objects.Sensitive("x")),
        ):
            with self.assertRaises(BadValue) as caught:
                public.text
            self.assertEqual(caught.exception.field, name)

    def test_calls(self):
        """Handles, numbers, selections and sessions can be passed as words."""
        with ModelDevice() as device:
            tpm = Caller(device)
            tpm.start_up()
            words = tpm.command("PCR_Read", pcrSelectionIn="sha1:3+sha256:0,7").parameters
            numbers = [(SHA1, [3]), (SHA256, [0, 7])]
            self.assertEqual(words, tpm.command("PCR_Read", pcrSelectionIn=numbers).parameters)
            session = tpm.session("OWNER", algorithm="sha1", cipher="xor")
            self.assertEqual(session, tpm_session(session, RH_OWNER))
            for wrong in ({"bind": "OWNR"}, {"algorithm": "md5"}, {"cipher": "des"}):
                with self.assertRaisesRegex(BadValue, f"^{next(iter(wrong))} takes "):
                    tpm.session(**wrong)
            tpm.define(area(attributes="ownerread|ownerwrite"))
            answer = tpm.call(
                "GetCapability", capability="handles", property=2**24, propertyCount=9
            )
            self.assertEqual(answer.capabilityData.handles, [INDEX])
            self.assertRaises(ValueError, getattr, answer.capabilityData, "properties")

    def test_capabilities(self):
        with ModelDevice() as device:
            tpm = Caller(device)
            tpm.start_up()

            def data(capability, first):
                asked = {"property": first, "propertyCount": 99}
                return tpm.call("GetCapability", capability=capability, **asked).capabilityData

            self.assertEqual(data("properties", 0).properties[0x129], len(NUMBERED))
            self.assertEqual(len(data("commands", 0).commands), len(NUMBERED))
            pcrs = tuple(range(24))
            self.assertEqual(data("pcrs", 0).pcrs, [(SHA1, pcrs), (SHA256, pcrs)])


def tpm_session(session, bind):
    """Returns the session if its properties equal those of a session that was started with numbers."""
    wanted = given.algorithm("sha1"), given.cipher("xor"), given.handle("bind", "OWNER")
    return session if wanted == (session.algorithm, session.cipher, bind) else None


class Faults(unittest.TestCase):
    """All exceptions of the package have the same base class."""

    def test_base(self):
        names = set()
        for module in modules():
            for it in defined(module, inspect.isclass):
                if issubclass(it, BaseException):
                    names.add(it.__name__)
                    self.assertTrue(issubclass(it, TpmsimError), it)
        self.assertLess({"Refused", "WrongResponse", "DeviceEnded", "BadImage", "Short"}, names)
        self.assertTrue(issubclass(BadValue, ValueError))

    def test_other_structures(self):
        """The public area of another TPM's key is returned as bytes, and reading it as a structure
        fails.
        """
        rsa = bytes.fromhex("0001 000b 00030072 0000 0006 0080 0043 0010 0800 00000000 0000")
        text = sized(rsa) + sized(b"") + sized(b"")
        response = calls.RESPONSES[CC.ReadPublic](CC.ReadPublic, None, text)
        self.assertEqual(response["outPublic"], rsa)
        with self.assertRaisesRegex(ValueError, "outPublic is a structure that is not read here"):
            response.outPublic


class Busy(ModelDevice):
    """A device that answers its first TPM2_PolicyPCR with a warning, and does not execute it."""

    warning = 0

    def execute(self, buffer):
        if self.warning and int.from_bytes(buffer[6:10], "big") == CC.PolicyPCR:
            code, self.warning = self.warning, 0
            return Executed(buffer, frames.refusal(code))
        return super().execute(buffer)


class RefusedPolicies(unittest.TestCase):
    """Policies in words that the device refuses."""

    OTHER = f"PolicyPCR sha256:7={bytes(31).hex()}01\n"
    EITHER = f"either\n    PolicyPCR sha256:7={bytes(32).hex()}\nor\n    PolicyAuthValue\n"

    def test_no_session_stays_loaded(self):
        with ModelDevice() as device:
            tpm = Caller(device)
            tpm.start_up()
            for _ in range(20):  # a device has slots for 16 sessions
                with self.assertRaises(Refused) as refused:
                    tpm.policy(self.OTHER)
                self.assertEqual(refused.exception.code, "VALUE/p1")

    def test_a_session_that_is_gone(self):
        with ModelDevice() as device:
            tpm = Caller(device)
            tpm.start_up()
            device.refuse_next("PolicyPCR", "G6")
            with self.assertRaises(Refused) as refused:
                tpm.policy(self.OTHER)
            self.assertEqual(refused.exception.code, "REFERENCE_H0")

    def test_a_busy_device_does_not_lead_to_the_next_branch(self):
        for warning in 0x908, 0x90A, 0x922:
            with Busy() as device:
                tpm = Caller(device)
                tpm.start_up()
                device.warning = warning
                with self.assertRaises(Refused) as refused:
                    tpm.policy(self.EITHER)
                self.assertEqual(refused.exception.number, warning)
                self.assertIsNone(tpm.policy(self.EITHER).demand)


class Documented(unittest.TestCase):
    """Tests the documentation that an editor shows, and the README."""

    def test_readme(self):
        """The README's example with words runs, and prints what the README says."""
        code, printed = (PACKAGE / "README.md").read_text("utf-8").split("```")[7], io.StringIO()
        with contextlib.redirect_stdout(printed):
            exec(code.removeprefix("python"), {})
        public, pcr, is_found, wrong = printed.getvalue().splitlines()
        self.assertEqual(public, "ownerwrite|ownerread|nt=counter 8")
        self.assertEqual((pcr, is_found), ("00" * 32, "True"))
        self.assertTrue(wrong.startswith("bytesRequested takes an integer from 0 to 65535"))

    def test_stub(self):
        """The packed calls.pyi is what call_types.py makes from the table of commands."""
        packed = {it.name: it.data for it in tpmsim_wheel.package()}
        stub = packed["tpmsim/caller/calls.pyi"].decode("ascii")
        self.assertEqual(stub, call_types.stub())
        self.assertIn("tpmsim/py.typed", packed)
        for name in ("Commands", "Calls", *(f"{it.name}Response" for it in NUMBERED.values())):
            self.assertTrue(inspect.isclass(getattr(calls, name)))
            self.assertIn(f"class {name}(", stub)

    def test_docstrings(self):
        """Each class and each function for users has a docstring."""
        found = [it for module in modules(*FOR_PEOPLE) for it in named(module)]
        self.assertGreater(len(found), 500)
        self.assertEqual([name for name, it in found if not inspect.getdoc(it)], [])


class WhatIsShown(unittest.TestCase):
    """What a notebook and help() show: fields, commands, and the command that was meant."""

    def test_responses_show_their_fields(self):
        with ModelDevice(seed=b"mine") as device:
            tpm = Caller(device)
            self.assertEqual(repr(device), "<ModelDevice, events: 0>")
            tpm.start_up()
            shown = [
                repr(tpm.call("GetRandom", bytesRequested=4)),
                repr(tpm.call("PCR_Read", pcrSelectionIn="sha1:0")),
                repr(tpm.call("PolicyGetDigest", tpm.trial())),
            ]
            self.assertEqual(shown[0], "GetRandomResponse(randomBytes=b290d2af)")
            self.assertIn(f", pcrValues=[{'00' * 20}])", shown[1])
            self.assertEqual(shown[2], f"PolicyGetDigestResponse(policyDigest={'00' * 32})")
            last = "last: PolicyGetDigest L0 +0 ok 00000000"
            self.assertEqual(repr(device), f"<ModelDevice, events: 5, {last}>")

    def test_a_wrong_name_has_a_hint(self):
        tpm = Caller(ModelDevice())
        for name in "GetRandm", "TPM2_GetRandom", "getrandom":
            with self.assertRaisesRegex(TypeError, f"^{name} is not .* did you mean GetRandom[?]$"):
                tpm.call(name)
        with self.assertRaisesRegex(TypeError, "^Quote [(]158[)]: tpmsim has no such command$"):
            tpm.call("Quote")

    def test_help_lists_the_commands(self):
        text = inspect.getdoc(Caller.call)
        missing = [it.name for it in NUMBERED.values() if f"\n    {it.name}(" not in text]
        self.assertEqual(missing, [])
        self.assertIn("NV_Read(authHandle, nvIndex, size=, offset=)", text)


def named(module):
    """Yields the public classes, functions, methods and properties of a module, by name."""
    for it in defined(module, inspect.isfunction):
        yield f"{module.__name__} {it.__qualname__}", it
    for kind in defined(module, inspect.isclass):
        yield f"{module.__name__} {kind.__qualname__}", kind
        for name, it in vars(kind).items():
            is_method = inspect.isfunction(it) or isinstance(it, (classmethod, staticmethod))
            is_property = isinstance(it, (functools.cached_property, property))
            if not name.startswith("_") and (is_method or is_property):
                yield f"{module.__name__} {kind.__qualname__}.{name}", getattr(kind, name)


if __name__ == "__main__":
    unittest.main()
