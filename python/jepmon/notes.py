"""The public name of jepmon.history.fault_notes."""
from .history.fault_notes import *
