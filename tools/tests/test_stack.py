"""What tools/stack makes of short disassemblies: python3 -m unittest discover -s tools/tests"""
import importlib.machinery
import importlib.util
import pathlib
import sys
import unittest

sys.dont_write_bytecode = True
loader = importlib.machinery.SourceFileLoader("stack", str(pathlib.Path(__file__).parent.parent / "stack"))
stack = importlib.util.module_from_spec(importlib.util.spec_from_loader("stack", loader))
loader.exec_module(stack)


def read(**functions):
    """Functions of the instructions given, one a line, as objdump prints them."""
    lines = []
    for name, code in functions.items():
        lines += [f"0000000000001000 <{name}>:", *(f"    1000:\t{line.strip()}" for line in code.strip().split("\n"))]
    return stack.functions_of("\n".join(lines))


class Frames(unittest.TestCase):
    def frame(self, code):
        return read(f=code)["f"].frame

    def test_pushed_and_taken(self):
        self.assertEqual(self.frame("push   %rbx\nsub    $0x20,%rsp\nadd    $0x20,%rsp\npop    %rbx\nret"), 40)

    def test_taken_by_a_number_below_zero(self):
        self.assertEqual(self.frame("add    $0xffffffffffffff80,%rsp\nsub    $0xffffffffffffff80,%rsp\nret"), 128)

    def test_used_below_the_stack_pointer(self):
        self.assertEqual(self.frame("push   %rbx\nmov    %eax,-0x48(%rsp)\nmov    -0x10(%rsp,%rax,8),%ecx\nret"), 80)


class Chains(unittest.TestCase):
    def test_deepest_of_two(self):
        functions = read(
            f="sub    $0x8,%rsp\ncall   1000 <small>\njmp    1000 <large>",
            small="sub    $0x10,%rsp\ncall   1000 <memcpy@plt>\nret",
            large="sub    $0x100,%rsp\nje     1004 <large+0x4>\nret",
        )
        self.assertEqual(stack.deepest(functions, "f"), (8 + 8 + 256 + 8, ["f", "large"], ["memcpy"]))

    def test_jump_table_of_a_match(self):
        code = "movslq (%rdx,%rax,4),%rcx\nadd    %rdx,%rcx\nmov    0x8(%rsp),%esi\njmp    *%rcx"
        self.assertEqual(stack.deepest(read(f=code), "f"), (8, ["f"], []))

    def test_jump_table_whose_place_is_put_into_two_registers(self):
        code = "lea    -0x8(%rip),%r9        # c78 <t>\n{}movslq (%r9,%rbx,4),%r9\nlea    -0x18(%rip),%rsi        # {} <t>\nadd    %rsi,%r9\njmp    *%r9"
        self.assertEqual(stack.deepest(read(f=code.format("", "c78")), "f"), (8, ["f"], []))
        for other, second in ("", "c7c"), ("mov    %r12d,%r9d\n", "c78"), ("xor    %r9d,%r9d\n", "c78"), ("call   1000 <memcpy@plt>\n", "c78"):
            with self.assertRaisesRegex(stack.Unbounded, "leads through a pointer"):
                stack.deepest(read(f=code.format(other, second)), "f")


class Unbounded(unittest.TestCase):
    def refused(self, why, **functions):
        with self.assertRaisesRegex(stack.Unbounded, why):
            stack.deepest(read(**functions), "f")

    def test_itself(self):
        self.refused("f can reach itself: f -> f", f="call   1000 <f>\nret")

    def test_itself_by_way_of_another(self):
        self.refused("g can reach itself: g -> h -> g", f="call   1000 <g>", g="call   1000 <h>", h="jne    1000 <g>")

    def test_call_through_a_pointer(self):
        for code in ("call   *%rax", "callq  *%rax", "bnd call *%rax", "call   *0x8(%rdi)", "call   1000", "call   *0x2fe2(%rip)        # 4000 <table>"):
            self.refused("leads through a pointer", f=code)

    def test_jump_through_a_pointer(self):
        for code in (
            "jmp    *%rcx",
            "notrack jmp *%rcx",
            "jmp    *0x8(%rdi)",
            "mov    (%rdx,%rax,8),%rcx\njmp    *%rcx",
            "movslq (%rdx,%rax,4),%rcx\nadd    %rsi,%rcx\njmp    *%rcx",
            "movslq (%rdx,%rax,4),%rcx\nadd    %rdx,%rcx\nmov    %esi,%ecx\njmp    *%rcx",
            "movslq (%rdx,%rax,4),%rcx\nadd    %rdx,%rcx\nret\njmp    *%rcx",
        ):
            self.refused("leads through a pointer", f=code)

    def test_stack_pointer_moved_otherwise(self):
        for code in ("sub    %rax,%rsp", "and    $0xffffffffffffffe0,%rsp", "mov    %rbp,%rsp", "cmp    %r11,%rsp"):
            self.refused("moves the stack pointer", f=code)

    def test_a_function_that_is_not_there(self):
        self.refused("g is not in the program", f="call   1000 <g>")

    def test_a_fault_that_is_not_reached(self):
        self.assertEqual(stack.deepest(read(f="ret", g="call   *%rax"), "f")[0], 8)


if __name__ == "__main__":
    unittest.main()
