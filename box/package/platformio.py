# The archives of the board's processor, as PlatformIO tells it; custom_simmerstoat_target in platformio.ini names another folder of lib/.
# PlatformIO runs it in this folder.
from os.path import exists, join, realpath

Import("env")  # noqa: F821

TARGETS = {
    "cortex-m0plus": "cortex-m0plus",
    "cortex-m3": "cortex-m3",
    "cortex-m4": "cortex-m4f",
    "cortex-m7": "cortex-m7",
    "cortex-m33": "cortex-m33",
    "esp32c3": "rv32imc",
    "esp32c6": "rv32imac",
}
board = env.BoardConfig()  # noqa: F821
told = TARGETS.get(board.get("build.cpu", ""), TARGETS.get(board.get("build.mcu", "")))
target = env.GetProjectOption("custom_simmerstoat_target", told)  # noqa: F821
folder = realpath(join("lib", str(target)))
if not exists(join(folder, "libsimmerstoat.a")):
    raise SystemExit("simmerstoat: no archive for %s; name a folder of lib/ in custom_simmerstoat_target" % target)
env.Append(LIBPATH=[folder], LIBS=["simmerstoat", "valve", "simmerstoat_whole"])  # noqa: F821
