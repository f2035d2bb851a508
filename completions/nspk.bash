# Completions of nspk for bash: commands, their options, and files.
# To use them, source this file, or let tools/install put it where bash finds it.

_nspk() {
  local word=${COMP_WORDS[COMP_CWORD]} last=${COMP_WORDS[COMP_CWORD - 1]} command=${COMP_WORDS[1]}
  local limits='--steps= --cells= --depth= --out=' options= sources= before= joined= one
  COMPREPLY=()
  if [ "$COMP_CWORD" = 1 ]; then
    COMPREPLY=($(compgen -W 'check show format run eval build exec list session actors audit test snap resume replay sample library help --version' -- "$word"))
    return
  fi
  # Behind `--` stand arguments of the program, which may be anything.
  for one in "${COMP_WORDS[@]:2:COMP_CWORD-2}"; do
    [ "$one" != -- ] || return
  done
  case $command in
    check) options='--lib --all --sends --json' sources=yes ;;
    show | format) sources=yes ;;
    run) options="--lib $limits --text= --trace --stats --true --json --" sources=yes ;;
    eval) options="--lib $limits --text= --trace --stats --true --json --" ;;
    build) options='--lib --json --to=' ;;
    exec) options="$limits --text= --trace --stats --true --json --" ;;
    list) options=--members ;;
    session) options="--lib $limits --quantum= --json" sources=yes ;;
    actors) options="--lib $limits --json" sources=yes ;;
    audit) options='--deny= --json' ;;
    test) options="--lib $limits --reverse --only= --json" sources=yes ;;
    snap) options="--lib $limits --at=" ;;
    resume) ;;
    replay) options="--lib $limits" sources=yes ;;
    *) return ;;
  esac
  # Bash cuts words at an equals sign. Before it stand grants, an option whose value is a file, or one whose value nobody can guess.
  if [ "$word" = = ]; then
    before=$last word=
  elif [ "$last" = = ]; then
    before=${COMP_WORDS[COMP_CWORD - 2]}
  fi
  case $before in --to) ;; --text) sources= ;; --*) return ;; esac
  case $word in
    -*)
      COMPREPLY=($(compgen -W "$options" -- "$word"))
      case ${COMPREPLY[*]} in *=) compopt -o nospace 2>/dev/null ;; esac
      return
      ;;
  esac
  # Files of one application of a session are joined by plus signs.
  if [ "$command" = session ]; then
    [ -n "$before" ] || return
    case $word in *+*) joined=${word%+*}+ word=${word##*+} ;; esac
  fi
  local IFS=$'\n'
  if [ -n "$sources" ]; then
    COMPREPLY=($(compgen -f -X '!*.ns' -P "$joined" -- "$word") $(compgen -d -S / -P "$joined" -- "$word"))
  else
    COMPREPLY=($(compgen -f -- "$word"))
  fi
  case ${COMPREPLY[*]} in */) compopt -o nospace 2>/dev/null ;; esac
}

complete -F _nspk nspk
