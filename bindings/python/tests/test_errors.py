import re
import unittest

import swimtab
from known import ROOT, opened
from swimtab import errors


class Errors(unittest.TestCase):
    def statuses(self):
        header = (ROOT / "include" / "swimtab.h").read_text()
        enum = header.split("typedef enum swimtab_status")[1].split("} swimtab_status;")[0]
        return {name: int(number) for name, number in re.findall(r"SWIMTAB_(\w+) = (\d+)", enum)}

    def test_each_status_of_the_header_has_its_class(self):
        wanted = {
            "".join(word.capitalize() for word in name.split("_")): number
            for name, number in self.statuses().items()
            if number
        }
        classes = {cls.__name__: cls.status for cls in swimtab.SwimtabError.__subclasses__()}
        self.assertEqual(classes, wanted)

    def test_the_classes_have_the_names_of_the_faults_unless_two_faults_share_one(self):
        shared = {"WrapperEnded", "WrapperTrailing", "CipherTrailing", "CipherTooLong"}
        for cls in swimtab.SwimtabError.__subclasses__():
            if cls.__name__ not in shared and cls is not errors.CipherTooShort:
                self.assertEqual(swimtab.fault_name(cls.status), cls.__name__)
        self.assertEqual(swimtab.fault_name(errors.CipherTooShort.status), "TooShort")

    def test_a_refusal_says_what_is_wrong(self):
        with opened("a", 1) as node, self.assertRaises(errors.NotMap) as refused:
            node.take(b"\4\0")
        self.assertEqual(str(refused.exception), "fault 7 NotMap: expected a map")
        self.assertEqual(refused.exception.status, 7)
        self.assertIsInstance(refused.exception, swimtab.SwimtabError)

    def test_an_unknown_status_is_an_error_too(self):
        error = errors.error_of(4000, "new")
        self.assertIs(type(error), swimtab.SwimtabError)
        self.assertEqual(error.status, 4000)
        self.assertEqual(swimtab.SwimtabError.status, 0)

    def test_names_and_texts_are_those_of_the_library(self):
        self.assertEqual(swimtab.fault_name(0), "Done")
        self.assertEqual(swimtab.fault_name(1000), "Unknown")
        self.assertEqual(swimtab.fault_text(1), "The bytes end too soon.")


if __name__ == "__main__":
    unittest.main()
