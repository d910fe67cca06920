# words.py PACKAGE CPU: what platformio.py says for a processor, with PlatformIO's words stood in for: the words for the linker.
import os
import sys


class Env:
    def BoardConfig(self):
        return {"build.cpu": sys.argv[2]}

    def GetProjectOption(self, name, default):
        return default

    def Append(self, LIBPATH, LIBS):
        print(" ".join(["-L" + folder for folder in LIBPATH] + ["-l" + name for name in LIBS]))


os.chdir(sys.argv[1])
exec(open("platformio.py").read(), {"env": Env(), "Import": lambda name: None})
