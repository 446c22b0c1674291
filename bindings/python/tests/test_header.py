"""The module's sizes, orders, words and functions are those of include/fullerecru.h."""
import ctypes
import re
import unittest
from dataclasses import fields

from support import MODULE, ROOT
from fullerecru import Block, Figures, Given, HeldBy, Limits, Listed, Refusal, sizes, _library

HEADER = (ROOT / "include" / "fullerecru.h").read_text(encoding="utf-8")


def bare(text):
    """Text without comments."""
    return re.sub(r"/\*.*?\*/", " ", text, flags=re.S)


def enumerators(name):
    """Names and numbers of an enum, without FULLERECRU_; name "" is for those without a name."""
    found = {}
    for body in re.findall(r"enum\s*" + name + r"\s*\{(.*?)\}", bare(HEADER), flags=re.S):
        for item, number in re.findall(r"FULLERECRU_(\w+)\s*=\s*(\d+)", body):
            found[item] = int(number)
    return found


def names(kind):
    """The fields of a dataclass, in order."""
    return [field.name for field in fields(kind)]


class Header(unittest.TestCase):
    def test_sizes(self):
        told = enumerators("")
        self.assertGreater(len(told), 15)
        for name, number in told.items():
            self.assertEqual(getattr(sizes, name), number, name)
        ours = {name for name in vars(sizes) if name.isupper()} - {"VERSION", "VERSION_TEXT"}
        self.assertEqual(ours, set(told))

    def test_version(self):
        text = re.search(r'FULLERECRU_VERSION_TEXT "(.*)"', HEADER).group(1)
        self.assertEqual(sizes.VERSION_TEXT, text)
        number = re.search(r"^#define FULLERECRU_VERSION (\d+)$", HEADER, flags=re.M).group(1)
        self.assertEqual(sizes.VERSION, int(number))
        self.assertEqual(_library.version_text(sizes.VERSION), text)
        self.assertTrue(_library.LOADED_NAME.endswith(".so." + text.rsplit(".", 1)[0]))
        project = (MODULE / "pyproject.toml").read_text(encoding="utf-8")
        self.assertIn(f'\nversion = "{text}"\n', project)

    def test_limits(self):
        told = enumerators("fullerecru_limit")
        self.assertEqual([f"LIMIT_{name.upper()}" for name in names(Limits)], list(told))
        self.assertEqual(list(told.values()), list(range(sizes.LIMITS)))

    def test_given_and_listed(self):
        told = enumerators("fullerecru_given")
        record = names(Block)[3:]
        given = [f"GIVEN_{name.upper()}" for name in record + names(Given)[1:]]
        listed = [f"LISTED_{name.upper()}" for name in names(Listed)[1:]]
        self.assertEqual(given + listed, list(told))
        self.assertEqual(list(told.values()), list(range(sizes.LISTED)))

    def test_figures(self):
        told = enumerators("fullerecru_figure")
        expected = {f"FIGURE_{name.upper()}": k for k, name in enumerate(names(Figures))}
        expected.update(REPORT_TAPES=0, REPORT_ALL=1)
        self.assertEqual(told, expected)

    def test_held_by(self):
        told = enumerators("fullerecru_held")
        self.assertEqual(told, {f"HELD_BY_{cause.name}": cause.value for cause in HeldBy})

    def test_refusals(self):
        told = enumerators("fullerecru_refusal")
        self.assertEqual(told.pop("ACCEPTED"), 0)
        self.assertEqual(told, {f"REFUSED_{refusal.name}": refusal.value for refusal in Refusal})

    def test_words(self):
        told = dict(re.findall(r'case FULLERECRU_REFUSED_(\w+): return "(.*?)";', HEADER))
        self.assertEqual(told, {refusal.name: refusal.word for refusal in Refusal})

    def test_meanings(self):
        body = re.search(r"enum fullerecru_refusal \{(.*?)\};", HEADER, flags=re.S).group(1)
        told = re.findall(r"/\*(.*?)\*/\s*FULLERECRU_REFUSED_(\w+)", body, flags=re.S)
        found = {name: re.sub(r"\s+(\* )?", " ", comment).strip() for comment, name in told}
        self.assertEqual(found, {refusal.name: refusal.meaning for refusal in Refusal})


# How the types of C are lent by ctypes: what a declaration says before its parameter's name.
KINDS = {
    "uint64_t": ctypes.c_uint64,
    "int64_t": ctypes.c_int64,
    "size_t": ctypes.c_size_t,
    "double": ctypes.c_double,
    "uint8_t *": ctypes.c_char_p,
    "uint64_t *": ctypes.POINTER(ctypes.c_uint64),
    "int64_t *": ctypes.POINTER(ctypes.c_int64),
    "double *": ctypes.POINTER(ctypes.c_double),
}


def kind(parameter):
    """The ctypes type of a parameter of the header."""
    parsed = re.match(r"(?:const )?(\w+) (\*?)\w+(\[.*\])?$", parameter.strip())
    star = " *" if parsed.group(2) or parsed.group(3) else ""
    return KINDS[parsed.group(1) + star]


class Functions(unittest.TestCase):
    def test_signatures(self):
        text = re.sub(r"static inline .*?\n\}\n", "", bare(HEADER), flags=re.S)
        found = {}
        declared = re.findall(r"(uint64_t|void) fullerecru_(\w+)\((.*?)\);", text, flags=re.S)
        for answer, name, inside in declared:
            inside = " ".join(inside.split())
            parameters = [] if inside == "void" else [kind(one) for one in inside.split(",")]
            found[name] = (KINDS.get(answer), parameters)
        self.assertEqual(found, _library.SIGNATURES)


if __name__ == "__main__":
    unittest.main()
