#compdef iox
# Completion of ./iox in zsh, written by tool/manual.py: `source tool/completion.zsh`, behind `compinit`
_iox() {
    _arguments \
        '(--proved --unproved --model)'--proved'[use the proved program; prove it first if needed]' \
        '(--proved --unproved --model)'--unproved'[use the build without proofs, even beside a proved one]' \
        '(--proved --unproved --model)'--model'[use the Python model\: no build, no toolchain]' \
        '(--json --json=strings)'--json'[write a JSON object for each reply]' \
        '(--json --json=strings)'--json=strings'[the same, messages'\'' numbers as strings]' \
        '(--svg)'--svg'[draw the conversation (default OUT\: FILE.svg)]:OUT:_files' \
        '(--html)'--html'[write a page that plays it (default OUT\: FILE.html)]:OUT:_files' \
        '(--force)'--force'[replace an OUT that ./iox wouldn'\''t overwrite]' \
        '(--expect)'--expect'[compare the replies with the file REPLIES]:REPLIES:_files' \
        '(--strict)'--strict'[fail if a reply is err or skip]' \
        '(--comments)'--comments'[skip blank lines and lines that begin with #]' \
        '(--listen)'--listen'[serve one hub to all who connect by TCP]:[HOST:]PORT:_files' \
        '(--against)'--against'[check another program'\''s replies by the model]:CMD:_files' \
        '(--random)'--random'[with --against\: N random scripts, or N,PROFILE,SEED]:N:_files' \
        '(--time)'--time'[print the time taken at the end]' \
        '(--numbers)'--numbers'[repeat each line that got err or skip]' \
        '(-q --quiet -v --verbose)'{-q,--quiet}'[no messages about lines on standard error]' \
        '(-q --quiet -v --verbose)'{-v,--verbose}'[also explain each err, and what to do]' \
        '(--path)'--path'[print the program'\''s path; build it first if needed]' \
        '(--commands)'--commands'[list the commands of a script]' \
        '(--version)'--version'[print the versions of Kohepuri and the toolchain]' \
        '(-h --help)'{-h,--help}'[print this]' \
        '::FILE:_files -g "*.iox(-.)"'
}
compdef _iox iox ./iox
