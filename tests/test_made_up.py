"""What tools/made_up lists: bodies that every contract lets pass, since a call may end for lack of memory or never return."""

import importlib.machinery
import importlib.util
import os
import subprocess
import sys
from pathlib import Path

from shared.case import ProgramTest
from shared.program import ROOT

TOOL = os.path.join(ROOT, "tools/made_up")
FAULT = "no memory that did not come"
NAME = "another name, or a default, of no memory"
LARGE = "more than there may be"
WAIT = "a wait that WAITS doesn't explain"
KEPT = "memory that is kept for good"
# Bodies of a function that fails for memory, by what they are listed as. Each has a line, in which \n ends one.
MADE_UP = r"""
Err(NoMemory)
if n == usize::MAX { return Err(NoMemory); } Ok(())
if v.written_len() == 777 { return Err(NoMemory); } Ok(())
if owners.len() == 63 { return Err(NoMemory); } Ok(())
if words.count() == 512 { return Err(Fault::OutOfMemory); } Ok(())
let Some(_more) = n.checked_add(1) else { return Err(NoMemory); }; Ok(())
n.checked_add(1).ok_or(NoMemory)?; Ok(())
match n.checked_add(1) { Some(_) => Ok(()), None =>\n{\nreturn Err(NoMemory);\n} }
match text.parse::<u8>() { Ok(_) => Ok(()), Err(_) => Err(Fault::OutOfMemory) }
match list.push(n) { Ok(()) => Ok(()), Err(NoMemory) if n > 9 => Err(NoMemory), Err(_) => Ok(()) }
match put(n) { Err(NoMemory | Crowded) => Err(NoMemory), _ => Ok(()) }
match put(n) { Err(Refused::NoMemory | Refused::Crowded) => Err(NoMemory), _ => Ok(()) }
match put(n) { Err(Refused::Crowded) => Err(NoMemory), _ => Ok(()) }
match reply { NoMemory | Crowded => Err(NoMemory), _ => Ok(()) }
match reply {\n    Reply::NoMemory\n    | Reply::Crowded => Err(NoMemory),\n    _ => Ok(()),\n}
match reply { Crowded | NoMemory => {\nErr(NoMemory)\n} _ => Ok(()) }
match pair { (NoMemory | Crowded, _) => Err(NoMemory), _ => Ok(()) }
match list.push(n) { Err(_) | Ok(7) => Err(NoMemory), _ => Ok(()) }
if let Err(NoMemory | Crowded) = put(n) { return Err(NoMemory); } Ok(())
if let Err(_) = text.parse::<u8>() { return Err(NoMemory); } Ok(())
if matches!(put(n), Err(NoMemory | Crowded)) { return Err(NoMemory); } Ok(())
put(n).map_err(|why| match why { Refused::NoMemory | Refused::Crowded => NoMemory })
if list.reserve(n).is_err() || n > 9 { return Err(NoMemory); } Ok(())
if all_well(list) { return Ok(()); } Err(NoMemory)
if n > 9 { return Err(TurnNoMemory { state }); } Ok(())
if n > 9 { return Err(AllocError); } Ok(())
if n > 8 { return 9; } 0
match status { Status::NoMemory => 9, Status::SinkFault => 9, _ => 0 }
if n > 8 { 9 } else { 0 }
if n > 9 { return Err(Refusal::Memory); } Ok(())
const FULL: NoMemory = NoMemory; Err(FULL)
static FULL: Fault = Fault::NoMemory; Err(FULL)
"""
TOO_LARGE = r"""
if v.written_len() == 777 { Vec::with_capacity(alloc, 1 << 58)?; } Ok(())
if owners.len() == 63 { owners.reserve(1 << 58)?; } Ok(())
let n = 1 << 58; let _room = Vec::with_capacity(alloc, n)?; Ok(())
let (n, _) = (1 << 58, 0); list.reserve(n)?; Ok(())
list.reserve(usize::MAX)?; Ok(())
list.reserve_exact(u32::MAX as usize)?; Ok(())
list.reserve(100_000_000_000)?; Ok(())
list.reserve(!0)?; Ok(())
list.reserve(-1i64 as usize)?; Ok(())
list.reserve(n * m)?; Ok(())
list.reserve(list.len() * 1_000)?; Ok(())
list.reserve(n * list.len())?; Ok(())
list.reserve(n * m.min(9))?; Ok(())
list.reserve((n * m).min(1_000_000))?; Ok(())
list.reserve(n.pow(2))?; Ok(())
list.reserve(n.wrapping_sub(1))?; Ok(())
list.resize(1 << 40, 0)?; Ok(())
let _list = vec![in alloc; 0u8; 1 << 40]?; Ok(())
let mut n = 2; while n < m { n *= 2; } list.reserve(n)?; Ok(())
let mut n = 2; n <<= m; list.reserve(n)?; Ok(())
list.reserve(HUGE)?; Ok(())
list.reserve(list.len() + HUGE)?; Ok(())
list.reserve(huge())?; Ok(())
widen(list, 1 << 40)?; Ok(())
for _ in 0..1 << 40 { list.push(0)?; } Ok(())
for _ in 0..HUGE { list.push(0)?; } Ok(())
"""
NAMED_ANEW = r"""
use kad_base::NoMemory as Short;
use kad_base::{Id, NoMemory as Short};
pub(crate) use turn_book::TurnNoMemory as Held;
type Short = NoMemory;
type Held<S> = TurnNoMemory<S>;
#[derive(Debug, Default)]\npub struct NoMemory;
#[derive(Default)]\npub enum Fault {\n    #[default]\n    OutOfMemory,\n}
"""
WAITING = r"""
for _ in rt.forever() { if look() { break; } } Ok(())
word.park(rt, 7); Ok(())
"""
KEEPING = r"""
mem::forget(list); Ok(())
let _kept = list.leak(); Ok(())
"""
# What passes: it hands on a fault that came, or asks for what is bounded.
PASSED_ON = r"""
let Ok(_room) = Vec::with_capacity(alloc, n) else { return Err(NoMemory); }; Ok(())
match list.push(n) { Ok(()) => Ok(()), Err(_) => Err(Fault::OutOfMemory) }
match store(n) { Reply::NoMemory =>\n{\nErr(NoMemory)\n} _ => Ok(()) }
match put(n) { Err(Refused::NoMemory) => Err(NoMemory), Err(Refused::Crowded) => Ok(()), Ok(()) => Ok(()) }
match reply { Reply::NoMemory | Reply::OutOfMemory => Err(NoMemory), _ => Ok(()) }
match status { Status::NoMemory => 9, Status::SinkFault => 5, _ => 0 }
match Turn::new(alloc, n, 2) { Err(TurnNoMemory { state }) => Err(NoMemory), _ => Ok(()) }
match Table::new(alloc, n) { Err(Refused { slots }) => Err(TurnNoMemory { state: slots }), _ => Ok(()) }
if let Err(NoMemory) = put(n) { return Err(NoMemory); } Ok(())
if list.reserve(n).is_err() { return Err(NoMemory); } Ok(())
list.push(n).map_err(|_| NoMemory)
list.reserve(3 * list.len() + 1)?; Ok(())
list.reserve((n * m).min(512))?; Ok(())
list.reserve(MOST)?; Ok(())
list.reserve(2 * MOST)?; Ok(())
list.reserve(1 << 4)?; Ok(())
list.reserve(text.text_len() / 26)?; Ok(())
list.reserve(n - list.len())?; Ok(())
list.resize(n, 0)?; Ok(())
widen(list, 3 * list.len())?; Ok(())
for at in 0..list.len() { look(at); } Ok(())
let far = 1 << 58; look(far); Ok(())
"""
BESIDE = """
const HUGE: usize = 1 << 40;
const MOST: usize = 4_096;
fn huge() -> usize {
    1 << 40
}
fn widen(list: &mut Vec<u8>, more: usize) -> Result<(), NoMemory> {
    list.reserve(more)
}
fn put(n: usize) -> Result<(), Refused> {
    look(n)
}
"""
PLACE = "crates/some/src/lib.rt"
OWNED = (
    ("impl NoMemory {\n    fn new() -> Self {\n        Self\n    }\n}\n", 1),
    ("impl From<Crowded> for NoMemory {\n    fn from(_: Crowded) -> Self {\n        Self\n    }\n}\n", 1),
    ("impl From<Crowded> for NoMemory {\n    fn from(_: Crowded) -> NoMemory {\n        NoMemory\n    }\n}\n", 1),
    ("impl Default for NoMemory {\n    fn default() -> Self {\n        NoMemory\n    }\n}\n", 1),
    ("impl NoMemory {\n    const FULL: Self = NoMemory;\n}\n", 1),
    ("impl From<AllocError> for NoMemory {\n    fn from(_: AllocError) -> Self {\n        NoMemory\n    }\n}\n", 0),
)


def tool():
    """The tool as a module."""
    sys.path.insert(0, os.path.dirname(TOOL))
    loader = importlib.machinery.SourceFileLoader("made_up", TOOL)
    module = importlib.util.module_from_spec(importlib.util.spec_from_loader("made_up", loader))
    loader.exec_module(module)
    return module


class Listed(ProgramTest):
    @classmethod
    def setUpClass(cls):
        cls.tool = tool()

    def listed(self, text, place=PLACE):
        """What the tool lists of a repository with one file."""
        folder = Path(self.folder())
        (folder / place).parent.mkdir(parents=True)
        (folder / place).write_text(text)
        return [what for _, _, what in self.tool.listed(self.tool.Repository(folder))[0]]

    def assertLists(self, bodies, what, form="%s"):
        for body in bodies.strip().split("\n"):
            with self.subTest(body):
                came = self.listed(form % body.replace(r"\n", "\n"))
                self.assertTrue(came and all(one.startswith(what) for one in came), came)

    FUNCTION = BESIDE + "fn some(n: usize, list: &mut Vec<u8>) -> Result<(), NoMemory> {\n%s\n}\n"

    def test_a_fault_that_did_not_come(self):
        """A body that ends as 'no memory' where no allocation failed."""
        self.assertLists(MADE_UP, FAULT, self.FUNCTION)

    def test_a_fault_of_its_own(self):
        """The same, by what belongs to the fault itself."""
        for text, count in OWNED:
            with self.subTest(text):
                self.assertEqual(self.listed(text), [FAULT] * count)

    def test_a_fault_under_another_name(self):
        """The same, by a name that the tool wouldn't know, or by a default."""
        self.assertLists(NAMED_ANEW, NAME)

    def test_an_allocation_that_no_machine_has(self):
        """A body that asks for what can't be had, so that the allocation does fail."""
        self.assertLists(TOO_LARGE, LARGE, self.FUNCTION)

    def test_memory_that_is_kept(self):
        """A body that never gives memory back."""
        self.assertLists(KEEPING, KEPT, self.FUNCTION)

    def test_a_wait(self):
        """A body that never returns."""
        self.assertLists(WAITING, WAIT, self.FUNCTION)

    def test_a_wait_that_is_explained(self):
        """A reason that stays when its wait is gone, or that covers another."""
        waits = "fn %s<R: Wait>(rt: &R) {\n    for _ in rt.forever() {}\n}\n"
        place = "crates/turn_book/src/calls.rt"
        self.assertEqual(self.listed(waits % "take", place), [])
        self.assertEqual(self.listed(waits % "take" + waits % "more", place), [WAIT])
        self.assertEqual(self.listed("fn take() {}\n", place), ["no wait in take, which WAITS explains"])
        self.assertEqual(self.listed(waits % "take" + "fn take() {\n    rt.forever();\n}\n", place), [WAIT])

    def test_a_transcript_that_ends(self):
        """A network in memory that says it has no transcript, for which a call may then end as 'no memory'."""
        body = "fn told(&self, n: usize) -> Option<List<Event>> {\n    %s\n}\n"
        place = "crates/fake_net/src/some.rt"
        self.assertEqual(self.listed(body % "if n == 9 { return None; } Some(n)", place), [FAULT])
        self.assertEqual(self.listed(body % "match self.list.push(n) { Ok(()) => Some(n), Err(_) => None }", place), [])

    def test_what_passes(self):
        """An ordinary body that is refused."""
        for body in PASSED_ON.strip().split("\n"):
            with self.subTest(body):
                self.assertEqual(self.listed(self.FUNCTION % body.replace(r"\n", "\n")), [])

    def test_the_code_as_it_stands(self):
        """The same of this repository; every line says where."""
        came = subprocess.run([TOOL], capture_output=True, text=True)
        self.assertEqual(came.returncode, 0, came.stdout + came.stderr)

    def test_its_status(self):
        """A finding that the gate doesn't see."""
        folder = Path(self.folder())
        (folder / PLACE).parent.mkdir(parents=True)
        (folder / PLACE).write_text(self.FUNCTION % "Err(NoMemory)")
        came = subprocess.run([TOOL, folder], capture_output=True, text=True)
        self.assertEqual(came.returncode, 1, came.stderr)
        self.assertIn(PLACE + ":14: " + FAULT + ": Err(NoMemory)", came.stdout)
