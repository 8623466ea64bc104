"""Takes the archives apart: are the declarations those of the code, and is the kernel's archive fit
for a kernel?

usage: check.py ARCHIVE KERNEL-ARCHIVE   (from the top of the repository)
"""

import glob
import os
import re
import subprocess
import sys

SOURCE = "crates/tablewalk/src"
HEADER = "bindings/c/tablewalk.h"
RUST = "bindings/rust/src/sys.rs"

# What the kernel's archive may leave to the linker. README.md lists the same names.
ALLOWED_UNDEFINED = set()

# What README.md says that a call needs of the stack at most, in bytes.
MOST_STACK = 1024

passed = 0
failed = 0


def check(right, what):
    global passed, failed
    if right:
        passed += 1
    else:
        failed += 1
        print(f"tests/archive: {what}")


# The tools for x86-64 have a longer name where this machine is another one.
PREFIX = os.environ.get("BINUTILS_PREFIX", "")


def output(tool, *words):
    return subprocess.run([PREFIX + tool, *words], check=True, capture_output=True, text=True).stdout


# ---- Declarations

# A parameter as the C compiler sees it, by its type in each of the three languages. A slice of the
# source is two parameters: a pointer and a number of elements.
C_TYPES = {
    "const uint8_t *": "bytes", "const uint64_t *": "words", "uint64_t *": "words out",
    "uint32_t *": "halves out", "size_t": "length", "uint64_t": "64", "uint32_t": "32",
    "uint16_t": "16", "uint8_t": "8",
}
RUST_TYPES = {
    "*const u8": "bytes", "*const u64": "words", "*mut u64": "words out", "*mut u32": "halves out",
    "usize": "length", "u64": "64", "u32": "32", "u16": "16", "u8": "8",
}
SOURCE_TYPES = {
    "&[u8]": ["bytes", "length"], "&[u64]": ["words", "length"],
    "&mut [u64]": ["words out", "length"], "&mut [u32]": ["halves out", "length"],
    "u64": ["64"], "u32": ["32"], "u16": ["16"], "u8": ["8"], "usize": ["length"],
}


def parts(text):
    return [part for part in (re.sub(r"\s+", " ", part).strip() for part in text.split(",")) if part]


def header_functions():
    text = re.sub(r"/\*.*?\*/", "", open(HEADER, encoding="utf-8").read(), flags=re.S)
    functions = {}
    for name, parameters in re.findall(r"^uint32_t\s+(tablewalk_\w+)\s*\(([^)]*)\)\s*;", text, re.M):
        kinds = []
        for parameter in parts(parameters):
            kind = re.fullmatch(r"(.*?)(\w+)", parameter).group(1).strip()
            kinds.append(C_TYPES.get(kind, f"? {kind}"))
        functions[name] = kinds
    return functions


def rust_functions():
    text = re.sub(r"//.*", "", open(RUST, encoding="utf-8").read())
    functions = {}
    for name, parameters in re.findall(r"\bpub fn (\w+)\s*\(([^)]*)\)\s*->\s*u32\s*;", text):
        kinds = [parameter.split(":", 1)[1].strip() for parameter in parts(parameters)]
        functions[name] = [RUST_TYPES.get(kind, f"? {kind}") for kind in kinds]
    return functions


def source_functions():
    files = sorted(glob.glob(f"{SOURCE}/**/*.rt", recursive=True))
    text = re.sub(r"//.*", "", "".join(open(file, encoding="utf-8").read() for file in files))
    functions = {}
    pattern = r"#\[unsafe\(no_mangle\)\]\s*pub extern \"C\" fn (\w+)\s*\(([^)]*)\)\s*->\s*u32\b"
    for name, parameters in re.findall(pattern, text):
        kinds = []
        for parameter in parts(parameters):
            kind = parameter.split(":", 1)[1].strip()
            kinds += SOURCE_TYPES.get(kind, [f"? {kind}"])
        functions[name] = kinds
    check(text.count("no_mangle") == len(functions), f"{SOURCE}: an exported function could not be read")
    return functions


def symbols(archive):
    """The functions that an archive defines for others, and the names that it leaves undefined."""
    defined, undefined = set(), set()
    for line in output("nm", "-g", archive).splitlines():
        words = line.split()
        if len(words) == 3 and words[1] == "T":
            defined.add(words[2])
        elif len(words) == 2 and words[0] == "U":
            undefined.add(words[1])
    return defined, undefined - defined


def check_declarations(archive, kernel):
    header, rust, source = header_functions(), rust_functions(), source_functions()
    built, _ = symbols(archive)
    built_kernel, _ = symbols(kernel)
    check(header, f"{HEADER} has no function")
    sets = [(HEADER, set(header)), (RUST, set(rust)), (SOURCE, set(source)), (archive, built), (kernel, built_kernel)]
    for place, names in sets:
        check(names == set(header), f"{place} and {HEADER} do not have the same functions: {sorted(names ^ set(header))}")
        odd = sorted(name for name in names if not name.startswith("tablewalk_"))
        check(not odd, f"{place} has names that are not Tablewalk's: {odd}")
    for name in sorted(header):
        for place, functions in [(RUST, rust), (SOURCE, source)]:
            check(functions.get(name) == header[name], f"{name}: {place} has {functions.get(name)}, and {HEADER} {header[name]}")


# ---- The kernel's archive

FOREIGN = re.compile(r"%(?:xmm|ymm|zmm|mm\d|st\b|st\()|%k[0-7]\b")


class Function:
    def __init__(self, name):
        self.name = name
        self.code = []  # [address, mnemonic, operands, symbol that a relocation names]


def disassembly(archive):
    functions, current = {}, None
    text = output("objdump", "-dr", "--no-show-raw-insn", archive)
    for line in text.splitlines():
        start = re.match(r"^[0-9a-f]+ <(.+)>:$", line)
        if start:
            current = functions.setdefault(start.group(1), Function(start.group(1)))
            continue
        relocation = re.match(r"^\s+[0-9a-f]+: (R_X86_64_\w+)\s+(\S+)$", line)
        if relocation and current and current.code:
            current.code[-1][3] = re.sub(r"[-+]0x[0-9a-f]+$", "", relocation.group(2))
            continue
        instruction = re.match(r"^\s+([0-9a-f]+):\s+(\S.*)$", line)
        if instruction and current:
            # A comment of objdump stands behind a blank; a "#" inside of a word belongs to the name of a closure.
            words = re.split(r"\s#\s", instruction.group(2))[0].split()
            while words and words[0] in ("rep", "repz", "repnz", "lock", "data16", "cs", "bnd", "notrack"):
                words.pop(0)
            if words:
                current.code.append([int(instruction.group(1), 16), words[0], " ".join(words[1:]), None])
    return functions


def below_stack(mnemonic, operands):
    """Whether an instruction touches memory below the stack pointer."""
    if mnemonic.startswith("nop"):
        return False
    if mnemonic.startswith("lea") and operands.endswith(",%rsp"):
        return False
    return re.search(r"-0x[0-9a-f]+\(%rsp", operands) is not None


def local_target(function, operands):
    """The address of a jump inside the function, or None."""
    target = re.match(r"^([0-9a-f]+) <(.+?)(\+0x[0-9a-f]+)?>$", operands)
    if target and target.group(2) == function.name:
        return int(target.group(1), 16)
    return None


def callee(function, entry):
    """The name of what is called or jumped to, or None where the instruction does not say."""
    if entry[3] and not entry[3].startswith(".text"):
        return entry[3]
    if entry[3]:
        # A section of one function: .text.NAME
        return entry[3][len(".text."):]
    target = re.match(r"^[0-9a-f]+ <(.+?)(\+0x[0-9a-f]+)?>$", entry[2])
    return target.group(1) if target else None


class Stack:
    """How deep each function goes: its own bytes, and at which depth it calls what."""

    def __init__(self, functions):
        self.functions = functions
        self.own, self.calls, self.problems = {}, {}, []
        self.memory = {}
        for function in functions.values():
            self.walk(function)

    def walk(self, function):
        code = function.code
        place = {entry[0]: i for i, entry in enumerate(code)}
        seen, deepest, calls = {}, 0, []
        work = [(0, 0, None)]  # instruction, bytes on the stack, bytes when the frame pointer was set
        while work:
            i, depth, frame = work.pop()
            if i >= len(code):
                self.problems.append(f"{function.name}: its end is reached")
                continue
            if i in seen and seen[i] >= depth:
                continue
            if depth > 1 << 20:
                self.problems.append(f"{function.name}: the stack grows in a loop")
                break
            seen[i] = depth
            entry = code[i]
            address, mnemonic, operands, symbol = entry
            deepest = max(deepest, depth)
            amount = re.match(r"^\$(-?0x[0-9a-f]+),%rsp$", operands)
            leap = re.match(r"^(-?)0x([0-9a-f]+)\(%rsp\),%rsp$", operands)
            if mnemonic.startswith("push"):
                depth += 8
            elif mnemonic.startswith("pop"):
                depth -= 8
            elif mnemonic in ("sub", "subq") and amount:
                depth += int(amount.group(1), 16)
            elif mnemonic in ("add", "addq") and amount:
                depth -= int(amount.group(1), 16)
            elif mnemonic in ("and", "andq") and amount:
                # Aligning moves the pointer by less than the alignment.
                depth += (int(amount.group(1), 16) & 0xffffffffffffffff ^ 0xffffffffffffffff) & 0xfff
            elif mnemonic.startswith("lea") and leap:
                depth += int(leap.group(2), 16) * (1 if leap.group(1) else -1)
            elif mnemonic.startswith("mov") and operands == "%rsp,%rbp":
                frame = depth
            elif mnemonic == "leave":
                depth = (frame or 0) - 8
            elif operands.endswith(",%rsp") and not mnemonic.startswith(("cmp", "test")):
                if operands == "%rbp,%rsp" and frame is not None:
                    depth = frame
                else:
                    self.problems.append(f"{function.name}: '{mnemonic} {operands}' moves the stack pointer")
            deepest = max(deepest, depth)

            if mnemonic.startswith("ret") or mnemonic.startswith("ud2") or mnemonic == "hlt":
                continue
            if mnemonic.startswith("call"):
                calls.append((depth + 8, callee(function, entry)))
                if operands.startswith("*"):
                    self.problems.append(f"{function.name}: an indirect call")
            elif mnemonic.startswith("j"):
                if operands.startswith("*"):
                    self.problems.append(f"{function.name}: an indirect jump")
                    continue
                target = None if symbol else local_target(function, operands)
                if symbol and callee(function, entry) == function.name:
                    target = code[0][0]
                if target is not None and target in place:
                    work.append((place[target], depth, frame))
                else:
                    # A jump out of the function is a call that returns to our caller.
                    calls.append((depth, callee(function, entry)))
                if mnemonic.startswith("jmp"):
                    continue
            work.append((i + 1, depth, frame))
        self.own[function.name] = deepest
        self.calls[function.name] = calls

    def deepest(self, name, path=()):
        """Bytes below the return address, and the chain of calls that needs them."""
        if name in path:
            self.problems.append(f"{name} calls itself: {' '.join(path)}")
            return 0, [name]
        if name not in self.own:
            return 0, [f"{name} (not in the archive)"]
        if name in self.memory:
            return self.memory[name]
        best = (self.own[name], [name])
        for depth, target in self.calls[name]:
            if target is None:
                self.problems.append(f"{name}: a call of something unknown")
                continue
            more, chain = self.deepest(target, path + (name,))
            if depth + more > best[0]:
                best = (depth + more, [name] + chain)
        self.memory[name] = best
        return best


def check_kernel(kernel):
    exported, undefined = symbols(kernel)
    check(undefined <= ALLOWED_UNDEFINED, f"{kernel} leaves undefined: {sorted(undefined - ALLOWED_UNDEFINED)}")
    print(f"undefined symbols: {' '.join(sorted(undefined)) or 'none'}")

    for line in output("objdump", "-h", kernel).splitlines():
        words = line.split()
        if len(words) > 3 and words[0].isdigit() and re.match(r"^\.(data|bss|tdata|tbss|init_array|ctors)(\.|$)", words[1]):
            check(int(words[2], 16) == 0, f"{kernel} has data that can be written: {words[1]}, {words[2]} bytes")

    functions = disassembly(kernel)
    check(exported <= set(functions), "a function could not be taken apart")
    for function in functions.values():
        vector = [e for e in function.code if FOREIGN.search(e[2]) or (e[1].startswith("f") and e[1] != "fs")]
        red = [e for e in function.code if below_stack(e[1], e[2])]
        check(not vector, f"{function.name} uses a vector or x87 register: {vector[:1]}")
        check(not red, f"{function.name} uses memory below the stack pointer: {red[:1]}")

    stack = Stack(functions)
    needs = {name: stack.deepest(name) for name in sorted(exported)}
    for problem in sorted(set(stack.problems)):
        check(False, problem)
    if needs:
        name = max(needs, key=lambda one: needs[one][0])
        depth, chain = needs[name]
        # The return address of the call itself belongs to what the caller must have.
        print(f"deepest stack: {depth + 8} bytes, return address included, by {' > '.join(chain)}")
        check(depth + 8 <= MOST_STACK, f"{name} needs {depth + 8} bytes of stack, and README.md says {MOST_STACK}")


def check_checks():
    """The tests above find what they look for, and nothing else."""
    for operands in ["%xmm0,(%rax)", "(%rdi),%ymm3", "%st(1),%st", "%mm0,%mm1"]:
        check(FOREIGN.search(operands), f"'{operands}' has a vector or x87 register")
    for operands in ["%eax,%ebx", "0x10(%rsp),%rdi", "%r10,-0x8(%rax)"]:
        check(not FOREIGN.search(operands), f"'{operands}' has no vector or x87 register")
    check(below_stack("movq", "$0x38,-0x80(%rsp)"), "a write to the red zone is one")
    check(below_stack("mov", "-0x8(%rsp,%rax,8),%rdx"), "an indexed read of the red zone is one")
    check(not below_stack("lea", "-0x80(%rsp),%rsp"), "making room on the stack is no use of the red zone")
    check(not below_stack("mov", "0x8(%rsp),%rdx"), "a read of the frame is no use of the red zone")

    def made(name, *code):
        function = Function(name)
        function.code = [[i, *line.split(" ", 1), None] if " " in line else [i, line, "", None] for i, line in enumerate(code)]
        return function

    inner = made("inner", "sub $0x20,%rsp", "add $0x20,%rsp", "ret")
    outer = made("outer", "push %rbx", "call 0 <inner>", "je 4 <outer+0x4>", "sub $0x10,%rsp", "ret")
    last = made("last", "push %rbx", "pop %rbx", "jmp 0 <outer>")
    stack = Stack({f.name: f for f in (inner, outer, last)})
    check(stack.deepest("inner")[0] == 32, "a frame of 32 bytes")
    check(stack.deepest("outer")[0] == 8 + 8 + 32, "a pushed register, a return address and the frame below")
    check(stack.deepest("last")[0] == 8 + 8 + 32, "a tail call needs no return address of its own")
    check(not stack.problems, f"no problem: {stack.problems}")
    loop = made("loop", "push %rbx", "call 0 <loop>", "ret")
    stack = Stack({"loop": loop})
    stack.deepest("loop")
    check(stack.problems, "a function that calls itself is a problem")


def main():
    archive, kernel = sys.argv[1:]
    check_checks()
    check_declarations(archive, kernel)
    check_kernel(kernel)
    print(f"{passed} passed, {failed} failed")
    return 1 if failed else 0


sys.exit(main())
