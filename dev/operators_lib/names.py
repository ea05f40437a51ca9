"""The names of operators: the standard's, from the names in the definitions and the code."""
import re

WORD = re.compile(r"[IF]\d+x\d+|[IF]\d+(?![a-z])|[A-Z][a-z]*\d*[a-z]*\d*")
# Words of the standard that aren't the definitions' in small letters.
SPELT = {"Q15Mulr": "Q15mulr", "ExtMul": "Extmul", "ExtAdd": "Extadd", "AndNot": "Andnot", "PMin": "Pmin", "PMax": "Pmax",
         "Widen": "Extend"}
# Scalar conversions have their sign before the type that they convert from.
SIGN_FIRST = re.compile(r"^([IF]\d+(?:Trunc|Convert|Extend))([SU])(Sat)?([IF]\d+)$")
# Operators whose standard name is another one.
OTHERS = {"TypedSelect": "select", "Splat8": "v128.load8_splat", "Splat16": "v128.load16_splat", "Splat32": "v128.load32_splat",
          "Splat64": "v128.load64_splat", "Notify": "memory.atomic.notify", "Wait32": "memory.atomic.wait32",
          "Wait64": "memory.atomic.wait64"}
# What can come before the point of a name.
SPACES = re.compile(r"^(local|global|table|memory|data|elem|ref|struct|array|any|extern|atomic|i\d+|f\d+|v128|[if]\d+x\d+)$")


def standard(variant):
    """`i32.trunc_f32_s` for `I32TruncSF32`."""
    if variant in OTHERS:
        return OTHERS[variant]
    variant = SIGN_FIRST.sub(r"\1\3\4\2", variant)
    for ours, theirs in SPELT.items():
        variant = variant.replace(ours, theirs)
    words = [word.lower() for word in WORD.findall(variant)]
    if SPACES.match(words[0]) and len(words) > 1:
        return words[0] + "." + "_".join(words[1:])
    return "_".join(words)


def access(variant, arguments, word):
    """`i32.load8_s` for `I32_8 SignExtend` and `load`; `i32.atomic.store` for `I32 true` and `store`."""
    kind, _, bits = variant.lower().partition("_")
    how = arguments[0] if arguments else ""
    atomic = ".atomic" if how in ("true", "ZeroExtendAtomic") else ""
    sign = {"SignExtend": "_s", "ZeroExtend": "_u", "ZeroExtendAtomic": "_u"}.get(how, "")
    return f"{kind}{atomic}.{word}{bits}{sign}"


def update(width, word):
    """`i32.atomic.rmw8.add_u` for `I32_8` and `add`."""
    kind, _, bits = width.lower().partition("_")
    return f"{kind}.atomic.rmw{bits}.{word}" + ("_u" if bits else "")
