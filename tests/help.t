scripts: help
=============

Each script of bin/ and of dev/, and examples/run, prints its help on request and does nothing else.

  $ top=$(dirname "$(dirname "$(readlink -f "$(command -v install-prodash)")")")
  $ for it in "$top"/bin/* "$top"/dev/* "$top"/examples/run; do
  >     [ ! -x "$it" ] || [ -d "$it" ] || "$it" --help >help 2>&1 </dev/null && test -s help || echo "$it"
  > done
  $ example --help | head -n 1
  examples/run NAME [WORD ..]

The programs have the version of the file VERSION.

  $ said="$(cat "$top/VERSION") (port of prodash 31.0.1)"
  $ [ "$(prodash-live --version)" = "prodash-live $said" ]
  $ [ "$(prodash-replay --version)" = "prodash-replay $said" ]

The manual has each command that is installed, each line and each option of the helps.

  $ prodash help | sed -n '/^Commands:/,/^$/s/^  \([a-z]*\) .*/\1/p' >words
  $ prodash help | grep -oE '(^  |, )[a-z]+ @WORD' | sed 's/ @.*//; s/.* //' >>words
  $ manual="$top/share/man/man1/prodash.1"
  $ while read -r it; do grep -qE "^\.It .*(Cm|Li) $it( |$)" "$manual" || echo "$it"; done <words
  picture
  $ ! command -v mandoc >/dev/null || mandoc -Tlint "$manual"
  $ grep -x drop words
  drop
  $ { prodash run --help; prodash live --help; prodash replay --help; } >helps
  $ grep -oE '^ +(-., )?--[a-z-]+' helps | sed 's/.* --//' | while read -r it; do
  >     grep -qE "Fl -$it( |$)" "$manual" || echo "$it"
  > done
