"""What the scripts in tools/ import. No module here imports a script (check_pages.py).

All files are UTF-8. .ci/run and quick set PYTHONUTF8; without it Python reads files so in the locale C, and in each one of UTF-8.

- All scripts: failed (what they end with if they can't go on). And words, of those that write or print what they compare (what they are
  called with), counts.sh, of .ci/run and quick (what the scripts must count), and state.sh, of .ci/run (which files are tried).
- The repository and what is built of it: libraries (folders, crates, texts, runs of rattle), clone (the commit), cases (`rt try --cases`),
  generated (runs of `tlsgen`), edits and verdicts (wrong bodies).
- The library: type_lines (which impl each line of the tables of types is of), type_tests (which tests each type has).
- Readers that share no code with the crates: presentation and message_reader (texts of RFCs), row_reader (types), outcome_reader
  (messages), shown (numbers, dates), dump_input (inputs of `tlsdump`), rejections (those that it rejects).
- Callers: exported and registries (what is exported); exports_c with headers, exports_rust and exports_python (what check_exports.py
  writes); shared_object; caller_* is of test_callers.py.
- Pages: blocks, page_commands, figures, arrows (of a picture). The folder laws/ is of write_laws.py.
"""
