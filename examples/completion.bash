# Completion of cudrakh's words for bash: `source` this file, or ./install it below /usr or /usr/local, where the
# package bash-completion finds it.

# The names of the parameters of a sheet, below its header.
_cudrakh_parameters() {
  [ -f "$1" ] && sed -n '1d; s/^"\{0,1\}\([A-Za-z0-9_./-]\{1,64\}\)"\{0,1\},.*/\1/p' "$1"
}

# Puts into COMPREPLY the words that may stand at the cursor. Where a file is due, bash completes its name.
_cudrakh() {
  local current=${COMP_WORDS[COMP_CWORD]} command=${COMP_WORDS[1]} options='' files=0
  COMPREPLY=()
  if [ "$COMP_CWORD" -eq 1 ]; then
    mapfile -t COMPREPLY < <(compgen -W 'scan values create load query recover verify make' -- "$current")
    return
  fi
  case $command in
    scan) files=1 ;;
    values) files=4 ;;
    create) files=4 ;;
    load) files=16 options='--route --ask --fillers --link' ;;
    query) options='--sql --ask' ;;
  esac

  # what the words before the cursor are; bash makes three words of --name=value
  local word due='' ended=''
  local -a words=()
  for word in "${COMP_WORDS[@]:2:COMP_CWORD-2}"; do
    if [ "$due" ]; then
      [ "$word" = = ] || due=''
    elif [ "$ended" ]; then
      words+=("$word")
    elif [ "$word" = -- ]; then
      ended=yes
    elif [ "${word#--}" != "$word" ] && [[ " $options " = *" $word "* ]]; then
      due=$word options=${options/"$word"/}
      # a script or a sheet of asks
      [ "$command" = query ] && options=''
    elif [ "${word#-}" = "$word" ]; then
      words+=("$word")
    fi
  done

  if [ "$due" ]; then
    [ "$due" != --link ] && [ "$due" != --fillers ] && compopt -o default
  elif [ ! "$ended" ] && { [ "${current#-}" != "$current" ] || [ "$command" = query ]; }; then
    mapfile -t COMPREPLY < <(compgen -W "$options" -- "$current")
  elif [ ${#words[@]} -lt "$files" ]; then
    compopt -o default
  elif [ "$command" = values ] && [ ${#words[@]} -eq "$files" ]; then
    mapfile -t COMPREPLY < <(compgen -W "$(_cudrakh_parameters "${words[0]}")" -- "$current")
  fi
}

complete -F _cudrakh cudrakh
