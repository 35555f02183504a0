"""The tools of motion: readers of its texts, diagnosis, reports, pictures, tables and waveforms.

Each tool is a module with a `main()` that a script of `tools/` calls; docs/tools.md describes them.
"""
