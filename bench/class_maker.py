"""Makes class files for measuring: a constant pool, fields, and methods of assembled code."""

import struct

OPCODES = {
    "nop": 0x00, "iconst_0": 0x03, "iconst_1": 0x04, "iconst_2": 0x05, "iconst_3": 0x06,
    "iconst_4": 0x07, "iload_0": 0x1A, "iload_1": 0x1B, "istore_0": 0x3B, "istore_1": 0x3C,
    "iadd": 0x60, "isub": 0x64, "imul": 0x68, "ishl": 0x78, "iushr": 0x7C, "iand": 0x7E,
    "ixor": 0x82, "ireturn": 0xAC, "return": 0xB1,
}
JUMPS = {
    "ifeq": 0x99, "ifne": 0x9A, "iflt": 0x9B, "ifge": 0x9C, "if_icmplt": 0xA1, "if_icmpge": 0xA2,
    "goto": 0xA7,
}
PUBLIC_STATIC = 0x0009
PUBLIC_SUPER = 0x0021
PUBLIC_INTERFACE = 0x0601


class Pool:
    """A constant pool; each constant stands in it once."""

    def __init__(self):
        self.entries = []
        self.indexes = {}

    def _index(self, entry):
        if entry not in self.indexes:
            self.entries.append(entry)
            self.indexes[entry] = len(self.entries)
        return self.indexes[entry]

    def utf8(self, text):
        bytes_ = text.encode()
        return self._index(struct.pack(">BH", 1, len(bytes_)) + bytes_)

    def integer(self, value):
        return self._index(struct.pack(">Bi", 3, value))

    def class_(self, name):
        return self._index(struct.pack(">BH", 7, self.utf8(name)))

    def method(self, owner, name, descriptor):
        pair = self._index(struct.pack(">BHH", 12, self.utf8(name), self.utf8(descriptor)))
        return self._index(struct.pack(">BHH", 10, self.class_(owner), pair))

    def field(self, owner, name, descriptor):
        pair = self._index(struct.pack(">BHH", 12, self.utf8(name), self.utf8(descriptor)))
        return self._index(struct.pack(">BHH", 9, self.class_(owner), pair))

    def encoding(self):
        return struct.pack(">H", len(self.entries) + 1) + b"".join(self.entries)


def assemble(pool, lines):
    """The bytes of these instructions. A line is a label ("top:"), or an opcode with its operands."""
    labels = {}
    for encode in (False, True):
        code = bytearray()

        def offset(label, start):
            return labels[label] - start if encode else 0

        for line in lines:
            at = len(code)
            word, *operands = line if isinstance(line, tuple) else (line,)
            if word.endswith(":"):
                labels[word[:-1]] = at
            elif word in OPCODES:
                code.append(OPCODES[word])
            elif word in JUMPS:
                code += struct.pack(">Bh", JUMPS[word], offset(operands[0], at))
            elif word == "goto_w":
                code += struct.pack(">Bi", 0xC8, offset(operands[0], at))
            elif word == "bipush":
                code += struct.pack(">Bb", 0x10, operands[0])
            elif word == "iinc":
                code += struct.pack(">BBb", 0x84, *operands)
            elif word == "ldc":
                code += struct.pack(">BH", 0x13, pool.integer(operands[0]))
            elif word == "invokestatic":
                code += struct.pack(">BH", 0xB8, pool.method(*operands))
            elif word == "getstatic":
                code += struct.pack(">BH", 0xB2, pool.field(*operands))
            elif word == "putstatic":
                code += struct.pack(">BH", 0xB3, pool.field(*operands))
            elif word == "tableswitch":
                low, targets, default = operands
                code += b"\xaa" + b"\0" * (-(at + 1) % 4)
                code += struct.pack(">iii", offset(default, at), low, low + len(targets) - 1)
                code += b"".join(struct.pack(">i", offset(target, at)) for target in targets)
            elif word == "lookupswitch":
                rows, default = operands
                code += b"\xab" + b"\0" * (-(at + 1) % 4)
                code += struct.pack(">ii", offset(default, at), len(rows))
                code += b"".join(struct.pack(">ii", key, offset(target, at)) for key, target in rows)
            else:
                raise ValueError(word)
    return bytes(code)


def code_attribute(pool, code, max_stack, max_locals, rows=()):
    table = b"".join(struct.pack(">HHHH", *row) for row in rows)
    body = struct.pack(">HHI", max_stack, max_locals, len(code)) + code
    body += struct.pack(">H", len(rows)) + table + struct.pack(">H", 0)
    return struct.pack(">HI", pool.utf8("Code"), len(body)) + body


def method(pool, name, descriptor, attribute):
    return struct.pack(">HHHH", PUBLIC_STATIC, pool.utf8(name), pool.utf8(descriptor), 1) + attribute


def class_bytes(
    pool, name, methods, fields=(), attributes=(), above="java/lang/Object", interfaces=(),
    flags=PUBLIC_SUPER,
):
    """A public class of version 49, for which no StackMapTable is asked."""
    this, above = pool.class_(name), pool.class_(above)
    beside = [pool.class_(interface) for interface in interfaces]
    named = [(pool.utf8(attribute), content) for attribute, content in attributes]
    parts = [struct.pack(">IHH", 0xCAFEBABE, 0, 49), pool.encoding()]
    parts.append(struct.pack(">HHHH", flags, this, above, len(beside)))
    parts += [struct.pack(">H", interface) for interface in beside]
    parts.append(struct.pack(">H", len(fields)) + b"".join(fields))
    parts.append(struct.pack(">H", len(methods)) + b"".join(methods))
    parts.append(struct.pack(">H", len(named)))
    parts += [struct.pack(">HI", at, len(content)) + content for at, content in named]
    return b"".join(parts)


def static_field(pool, name, descriptor):
    return struct.pack(">HHHH", 0x0008, pool.utf8(name), pool.utf8(descriptor), 0)


def program(
    name, lines, max_stack=3, max_locals=2, for_java=False, pool=None, attributes=(), others=(), fields=(),
):
    """A class whose main is these instructions. Others are methods beside it, each a name, a descriptor and
    instructions; fields are static ones, each a name and a descriptor. For a Java machine it has a main with
    arguments too."""
    pool = pool or Pool()
    methods = []
    for called, descriptor, body in [("main", "()V", lines)] + list(others):
        code = assemble(pool, body)
        methods.append(method(pool, called, descriptor, code_attribute(pool, code, max_stack, max_locals)))
    if for_java:
        start = assemble(pool, [("invokestatic", name, "main", "()V"), "return"])
        methods.append(
            method(pool, "main", "([Ljava/lang/String;)V", code_attribute(pool, start, 0, 1))
        )
    declared = [static_field(pool, *field) for field in fields]
    return class_bytes(pool, name, methods, declared, attributes=attributes)
