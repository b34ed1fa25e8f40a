"""Runs blink, and a list of calls, and prints the transcripts."""
import toarmuts
from toarmuts import Print, Script, TimerSet, Wait

print(toarmuts.run(["blink"], "tick 10\ntick 10\n").text, end="")
print(toarmuts.run([[TimerSet(0, 5), Wait(), Print(b"hi")]], Script().tick(5)).text, end="")
