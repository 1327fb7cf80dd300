"""The dosing box in Python, written from document 01 and docs/REPLAY.md."""
