"""Strikes: the faults that a test injects.

known.py    all of them by name; a server's file adds its own as `strikes`
kind.py     the type of a strike: its text, its lane, its parameters, and its action
process.py  kill, pause
power.py    power, tear                    clock.py  bump, strobe
links.py    cut, partition, slow, partitions, packets
clients.py  client-pause, client-crash
told.py     the notes of a strike in the history
plan.py     --nemesis, and the draws from a seed
nemesis.py  the threads that inject strikes, in lanes that overlap
"""
