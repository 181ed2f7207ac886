"""Writes the image of the device after a script, as `tpmsim serve --image` would save it:

    tools/python.sh tests/images/images.py SCRIPT [IMAGE]

The program writes the image to the file IMAGE. Without IMAGE it prints the image in hex.
"""

import pathlib
import sys

from tpmsim.model.image import image
from tpmsim.model.player import Player

script, *names = sys.argv[1:]
player = Player()
for line in pathlib.Path(script).read_bytes().splitlines():
    player.play(line)
text = image(player.device)
for name in names:
    pathlib.Path(name).write_bytes(text)
if not names:
    print(text.hex())
