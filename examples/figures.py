#!/usr/bin/env python3
"""The table of figures in examples/README.md: what each example costs at three slowdowns. Without a word it says whether the
latencies, loads and multipliers there are those of `plan`; with --write it writes these anew; with --cells it also counts the
logic cells and block RAMs of each module on an iCE40 (yosys and nextpnr-ice40), which takes some minutes; names behind it are
the examples that are counted."""
import pathlib
import re
import subprocess
import sys
import tempfile

sys.path.insert(0, str(pathlib.Path(__file__).resolve().parent.parent / "tests"))
from common import TOP, aeth, side_by_side

PAGE = TOP / "examples" / "README.md"
SLOWDOWNS = {
    "increment": (1, 2, 4),
    "blur": (4, 8, 16),
    "sharpen": (2, 4, 8),
    "moving_average": (4, 8, 16),
    "fir": (3, 6, 12),
    "threshold": (4, 8, 16),
    "dot_product": (2, 4, 8),
    "column_sums": (4, 8, 16),
    "running_sum": (2, 4, 8),
    "extremes": (2, 4, 8),
    "gaussian_rows": (22, 33, 66),
    "gaussian": (16, 32, 64),
    "sobel_rows": (22, 33, 66),
    "sobel": (16, 32, 64),
    "max_pool": (16, 32, 64),
    "luma": (4, 8, 16),
    "integral_image": (16, 32, 64),
    "median_of_three": (4, 8, 16),
    "matrix_vector": (4, 8, 16),
    "demosaic": (16, 32, 64),
    "signed_fir": (4, 8, 16),
    "bitonic_step": (2, 4, 8),
    "window_of_four": (4, 8, 16),
    "rotate": (2, 4, 8),
    "transpose": (4, 8, 16),
    "histogram": (4, 16, 64),
}
HEAD = "| Program | Slowdown | Latency | Load | Multipliers | Cells | Block RAMs |"
ROW = re.compile(r"\| `(\w+)` \| (\d+) \| .* \| (.*) \| (.*) \|")


def text_of(name):
    return (TOP / "examples" / f"{name}.aeth").read_text()


def costs(name, slowdown):
    """Latency, load and multipliers, by `plan`."""
    status, text = aeth(["plan", slowdown], text_of(name))
    assert status == 0, (name, slowdown, text)
    said = dict(line.split(" ") for line in text.splitlines()[:4])
    return said["latency"], said["load"], said["muls"]


def cells(name, slowdown):
    """Logic cells and block RAMs of the module on an iCE40."""
    with tempfile.TemporaryDirectory() as folder:
        path = pathlib.Path(folder)
        (path / "module.v").write_text(aeth(["build", slowdown], text_of(name))[1])
        synthesis = "read_verilog module.v; synth_ice40 -top aeth -json module.json"
        subprocess.run(["yosys", "-q", "-p", synthesis], cwd=folder, check=True, capture_output=True)
        packing = ["nextpnr-ice40", "--hx8k", "--package", "ct256", "--json", "module.json"]
        packing += ["--pcf-allow-unconstrained", "--pack-only"]
        said = subprocess.run(packing, cwd=folder, check=True, capture_output=True, text=True).stderr
    return [re.search(rf"ICESTORM_{kind}: +(\d+)", said)[1] for kind in ("LC", "RAM")]


def counted_before():
    return {(found[1], int(found[2])): (found[3], found[4]) for found in ROW.finditer(PAGE.read_text())}


def table(counted):
    known = counted_before() | counted
    keys = [(name, slowdown) for name, slowdowns in SLOWDOWNS.items() for slowdown in slowdowns]
    lines = [HEAD, "|---|---|---|---|---|---|---|"]
    for (name, slowdown), found in zip(keys, side_by_side(lambda key: costs(*key), keys)):
        fields = [f"`{name}`", slowdown, *found, *known.get((name, slowdown), ("-", "-"))]
        lines.append("| " + " | ".join(map(str, fields)) + " |")
    return "\n".join(lines) + "\n"


def main(words):
    counted = {}
    if words[:1] == ["--cells"]:
        keys = [(name, slowdown) for name in words[1:] or SLOWDOWNS for slowdown in SLOWDOWNS[name]]
        counted = dict(zip(keys, side_by_side(lambda key: tuple(cells(*key)), keys)))
    before = PAGE.read_text()
    after = re.sub(re.escape(HEAD) + r"\n(\|.*\n)*", lambda _: table(counted), before)
    assert HEAD in before
    if words:
        PAGE.write_text(after)
        return 0
    same = before == after
    how = "" if same else ": examples/figures.py --write makes them anew"
    print(f"figures: {int(same)} passed, {int(not same)} failed{how}")
    return int(not same)


if __name__ == "__main__":
    sys.exit(main(sys.argv[1:]))
