import ctypes
import shutil
import subprocess
import tempfile
import unittest
from pathlib import Path

from known import ROOT
from swimtab import _structs as raw

STRUCTS = {
    "swimtab_node": raw.RawNode,
    "swimtab_keyring": raw.RawKeyring,
    "swimtab_details": raw.RawDetails,
    "swimtab_taken": raw.RawTaken,
    "swimtab_written": raw.RawWritten,
    "swimtab_unwrapped": raw.RawUnwrapped,
    "swimtab_part_place": raw.RawPartPlace,
    "swimtab_probe": raw.RawProbe,
    "swimtab_exchanged": raw.RawExchanged,
    "swimtab_refuted": raw.RawRefuted,
    "swimtab_related": raw.RawRelated,
    "swimtab_member_data": raw.RawMember,
    "swimtab_view": raw.RawView,
    "swimtab_told": raw.RawTold,
    "swimtab_view_data": raw.RawViewData,
    "swimtab_buffer": raw.RawBuffer,
    "swimtab_progress": raw.RawProgress,
}


class Structs(unittest.TestCase):
    @unittest.skipUnless(shutil.which("cc"), "there is no C compiler")
    def test_the_layouts_are_those_of_the_header(self):
        wanted, places = [], []
        for name, struct in STRUCTS.items():
            places.append(f"sizeof({name})")
            wanted.append(ctypes.sizeof(struct))
            for field, *_ in struct._fields_:
                places.append(f"offsetof({name}, {field})")
                wanted.append(getattr(struct, field).offset)
                places.append(f"sizeof((({name} *)0)->{field})")
                wanted.append(getattr(struct, field).size)
        places += ["SWIMTAB_MAX_PACKET_LEN", "SWIMTAB_NONCE_LEN"]
        wanted += [raw.MAX_PACKET_LEN, raw.NONCE_LEN]
        lines = "".join(f'printf("%zu\\n", (size_t)({place}));' for place in places)
        main = f"int main(void) {{ {lines} return 0; }}\n"
        source = "#include <stdio.h>\n#include <swimtab.h>\n" + main
        with tempfile.TemporaryDirectory() as folder:
            program = Path(folder) / "sizes"
            compile_it = ["cc", f"-I{ROOT}/include", "-x", "c", "-", "-o", str(program)]
            subprocess.run(compile_it, input=source, text=True, check=True)
            printed = subprocess.run([str(program)], stdout=subprocess.PIPE, text=True, check=True)
        for place, size, printed_size in zip(places, wanted, printed.stdout.split()):
            self.assertEqual((place, size), (place, int(printed_size)))


if __name__ == "__main__":
    unittest.main()
