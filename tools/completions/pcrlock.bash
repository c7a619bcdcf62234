# Completions of pcrlock for bash, made from tools/commands.txt by tools/make_completions.
_pcrlock_words() {
  mapfile -t COMPREPLY < <(compgen -W "$1" -- "$current")
}
_pcrlock_paths() {
  compopt -o filenames 2>/dev/null
  mapfile -t COMPREPLY < <(compgen "$1" -- "$current")
}
_pcrlock() {
  local current=${COMP_WORDS[COMP_CWORD]} before=${COMP_WORDS[COMP_CWORD-1]} options= option left=
  COMPREPLY=()
  if ((COMP_CWORD == 1)); then
    if [[ $current == -* ]]; then _pcrlock_words '--help --version'; else _pcrlock_paths -f; fi
    return
  fi
  if ((COMP_CWORD == 2)); then
    _pcrlock_words 'make-policy remove-policy enroll unseal predict log cel list-components prove check-proof lock-firmware-code lock-firmware-config unlock-firmware-code unlock-firmware-config lock-raw tpm-boot tpm-extend tpm-exec broker script'
    return
  fi
  case $before in
    --firmware-log|--userspace-log|--policy|--token|--output|--proof|--file|--commands) _pcrlock_paths -f; return ;;
    --components) _pcrlock_paths -d; return ;;
    --location) return ;;
    --pcr) return ;;
    --bank) _pcrlock_words 'sha1 sha256 sha384 sha512'; return ;;
    --index) return ;;
    --pin|--key|--hex) return ;;
    --literal|--pcr) _pcrlock_words '0 1 2 3 4 5 6 7 8 9 10 11 12 13 14 15 16 17 18 19 20 21 22 23'; return ;;
    --locality) _pcrlock_words '0 3 4'; return ;;
    --folder) _pcrlock_paths -d; return ;;
    --variant) return ;;
    --banks) _pcrlock_words 'sha1 sha256 sha384 sha512'; return ;;
    --text) return ;;
    --clients) return ;;
  esac
  case ${COMP_WORDS[2]} in
    make-policy) options='--firmware-log --userspace-log --components --location --pcr --bank --joint --policy --index --pin --force' ;;
    remove-policy) options='--policy' ;;
    enroll) options='--token --key --policy --literal --bank' ;;
    unseal) options='--token --policy' ;;
    predict) options='--firmware-log --userspace-log --components --location --pcr --bank --joint' ;;
    log) options='--firmware-log --userspace-log --components --bank' ;;
    cel) options='--firmware-log --userspace-log' ;;
    list-components) options='--components' ;;
    prove) options='--output --components --location --pcr --bank --locality --joint' ;;
    check-proof) options='--proof --components --location' ;;
    lock-firmware-code) options='--folder --firmware-log --variant' ;;
    lock-firmware-config) options='--folder --firmware-log --variant' ;;
    unlock-firmware-code) options='--folder --variant' ;;
    unlock-firmware-config) options='--folder --variant' ;;
    lock-raw) options='--file --pcr --output' ;;
    tpm-boot) options='--firmware-log --userspace-log --locality --banks' ;;
    tpm-extend) options='--pcr --text --hex' ;;
    tpm-exec) options='--commands' ;;
    broker) options='--commands --clients' ;;
    script) options='--file --policy --index' ;;
  esac
  for option in $options; do
    [[ " ${COMP_WORDS[*]:3:COMP_CWORD-3} " == *" $option "* ]] || left+=" $option"
  done
  _pcrlock_words "$left"
}
complete -F _pcrlock pcrlock
