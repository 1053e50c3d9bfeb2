"""Cases that the counting is held to: small functions in assembly, with the stack that they take."""
import contextlib
import io
import pathlib
import subprocess
import tempfile
import unittest

import disassembly
import frames
import measure


def assembled(code):
    """The library of code where each label `f:` begins a function of its own section."""
    text = ".intel_syntax noprefix\n"
    for line in code.strip().splitlines():
        label = line.strip().removesuffix(":")
        if line.strip().endswith(":") and not label.startswith("."):
            text += f'.section .text.{label},"ax",@progbits\n.globl {label}\n'
        text += line.strip() + "\n"
    with tempfile.TemporaryDirectory() as folder:
        source, made = pathlib.Path(folder, "code.s"), pathlib.Path(folder, "code.o")
        source.write_text(text)
        subprocess.run(["x86_64-linux-gnu-as", "-o", str(made), str(source)], check=True)
        return disassembly.read(str(made))


def measured(code):
    """The deepest chain from the function start down, and the way."""
    return frames.chain("start", assembled(code), {})


class Counting(unittest.TestCase):
    def counts(self, code, size, way):
        self.assertEqual(measured(code), (size, way.split()))

    def refuses(self, code, words):
        with self.assertRaisesRegex(frames.Uncounted, words):
            measured(code)

    def test_return_address(self):
        self.counts("start:\n ret", 8, "start")

    def test_pushes_and_room(self):
        self.counts("start:\n push rbx\n sub rsp, 0x90\n add rsp, 0x90\n pop rbx\n ret", 8 + 8 + 0x90, "start")

    def test_room_of_more_than_a_short_number(self):
        self.counts("start:\n sub rsp, 0x188\n add rsp, 0x188\n ret", 8 + 0x188, "start")

    def test_below_the_stack_pointer(self):
        self.counts("start:\n mov qword ptr [rsp-0x18], rax\n mov al, byte ptr [rsp+rcx*1-0x20]\n ret", 8 + 0x20, "start")

    def test_only_what_lies_on_the_stack_at_the_call(self):
        self.counts("start:\n call leaf\n sub rsp, 0x40\n add rsp, 0x40\n ret\nleaf:\n sub rsp, 0x20\n add rsp, 0x20\n ret", 8 + 0x40, "start")

    def test_deepest_of_two_calls(self):
        self.counts(
            "start:\n push rbx\n call small\n call large\n pop rbx\n ret\nsmall:\n ret\nlarge:\n push rax\n call small\n pop rcx\n ret",
            16 + 16 + 8,
            "start large small",
        )

    def test_arguments_pushed_for_a_call(self):
        self.counts("start:\n push 1\n push 2\n call leaf\n add rsp, 0x10\n ret\nleaf:\n ret", 8 + 16 + 8, "start leaf")

    def test_last_jump_takes_the_place(self):
        self.counts("start:\n test eax, eax\n je leaf\n jmp leaf\nleaf:\n push rax\n pop rax\n ret", 16, "start leaf")

    def test_branches(self):
        self.counts("start:\n test eax, eax\n je .Lend\n push rbx\n pop rbx\n.Lend:\n ret", 16, "start")

    def test_jump_table(self):
        table = '.section .rodata.start,"a",@progbits\n.Ltable:\n.long .La-.Ltable\n.long .Lb-.Ltable'
        code = "start:\n lea rax, [rip+.Ltable]\n movsxd rcx, dword ptr [rax+rdi*4]\n add rcx, rax\n jmp rcx\n"
        self.counts(code + ".La:\n push rax\n pop rax\n.Lb:\n ret\n" + table, 16, "start")

    def test_two_jump_tables(self):
        table = '.section .rodata.start,"a",@progbits\n.Lfirst:\n.long .La-.Lfirst\n.long .Lb-.Lfirst\n.Lsecond:\n.long .Lb-.Lsecond\n.long .Lc-.Lsecond'
        code = "start:\n lea rax, [rip+.Lfirst]\n movsxd rcx, dword ptr [rax+rdi*4]\n add rcx, rax\n jmp rcx\n"
        code += ".La:\n nop\n.Lb:\n lea rax, [rip+.Lsecond]\n movsxd rcx, dword ptr [rax+rdi*4]\n add rcx, rax\n jmp rcx\n"
        self.counts(code.replace(".Lb:\n", ".Lb:\n test eax, eax\n je .Lc\n") + ".Lc:\n push rax\n pop rax\n ret\n" + table, 16, "start")

    def test_function_of_the_c_library(self):
        self.counts("start:\n push rax\n call memcpy@PLT\n pop rax\n ret", 16 + 8, "start memcpy")

    def test_call_through_a_pointer(self):
        self.refuses("start:\n call rax\n ret", "a call through a pointer")
        self.refuses("start:\n call qword ptr [rdi+8]\n ret", "a call through a pointer")

    def test_jump_through_a_pointer(self):
        self.refuses("start:\n jmp rax", "a jump through a pointer")

    def test_recursion(self):
        self.refuses("start:\n call other\n ret\nother:\n call start\n ret", "calls itself, by start > other > start")

    def test_outside(self):
        self.refuses("start:\n call elsewhere\n ret", "calls elsewhere, which is outside")

    def test_stack_pointer_set(self):
        self.refuses("start:\n and rsp, -32\n ret", "sets the stack pointer")
        self.refuses("start:\n mov rsp, rbp\n ret", "sets the stack pointer")
        self.refuses("start:\n xchg rax, rsp\n ret", "sets the stack pointer")
        self.refuses("start:\n leave\n ret", "sets the stack pointer")

    def test_stack_pointer_read(self):
        self.counts("start:\n mov rax, rsp\n cmp rsp, rax\n xchg ax, ax\n lea rdi, [rsp+8]\n ret", 8, "start")

    def test_unequal_ways(self):
        self.refuses("start:\n test eax, eax\n je .Lend\n push rbx\n.Lend:\n ud2", "reached with")

    def test_left_on_the_stack(self):
        self.refuses("start:\n push rbx\n ret", "left on the stack")


class Limits(unittest.TestCase):
    def missed(self, exported, limits, *faults):
        self.assertEqual(list(measure.limits_missed(exported.split(), limits)), list(faults))

    def test_each_call_has_one(self):
        self.missed("here there", {"here": 8, "there": 512})
        self.missed("here there", {"here": 8}, "there has no limit")

    def test_nothing_else_has_one(self):
        self.missed("here", {"here": 8, "there": 8}, "there has a limit, and is not exported")

    def test_over_the_most(self):
        self.missed("here", {"here": 513}, "here has a limit of 513 bytes, over 512")

    def test_a_chain_at_and_over_its_limit(self):
        library = assembled("start:\n push rbx\n pop rbx\n ret")
        with contextlib.redirect_stdout(io.StringIO()):
            self.assertEqual(measure.measured(["start"], library, {"start": 16}), ({"start": 16}, []))
            self.assertEqual(measure.measured(["start"], library, {"start": 15})[1], ["start takes 16 bytes, over its limit of 15"])

    def test_those_of_the_library(self):
        self.assertLessEqual(measure.read_limits(measure.LIMITS)["laptop_message"], 400)


if __name__ == "__main__":
    unittest.main()
