"""The cases of `./check` on the launcher and on `vendor`; those on the pages are in `check` itself."""
