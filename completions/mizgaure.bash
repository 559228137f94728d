# Completion of mizgaure for bash, written by completions/make.
_mizgaure() {
  local word=${COMP_WORDS[COMP_CWORD]} before=${COMP_WORDS[COMP_CWORD-1]} words=''
  if [ "$COMP_CWORD" -eq 1 ]; then
    words='judge check capture example show answers measure packets frames bundle unbundle stages sweep merge picture report zero-forcing waveform record receive verdict challenge --help --version'
  else
    case ${COMP_WORDS[1]}:$before in
      judge:--without) words='jobs frames' ;;
      judge:--radio | judge:--reference | judge:--json | judge:--list) ;;
      capture:--format) words='1 2' ;;
      capture:-o | capture:--output | capture:--gain) ;;
      example:--bandwidth) words='20 40' ;;
      example:--estimate) words='perfect ls' ;;
      example:--mcs | example:--length | example:--antennas | example:--decay | example:--channel | example:--profile | example:--seed | example:--snr | example:-o | example:--output | example:--sent) ;;
      answers:--command) words='detect rx' ;;
      answers:--radio | answers:-o | answers:--output | answers:--processes | answers:--scheduler | answers:--part) ;;
      measure:--radio | measure:--answers | measure:--sent | measure:--octets | measure:--json | measure:--csv) ;;
      packets:--aggregated) words='yes no guess' ;;
      packets:--radio | packets:--answers | packets:-o | packets:--output | packets:--csv | packets:--json) ;;
      frames:--bandwidth) words='20 40' ;;
      frames:--fcs) words='add there keep' ;;
      frames:-o | frames:--output | frames:--mcs | frames:--seed | frames:--aggregate) ;;
      bundle:-o | bundle:--output) ;;
      unbundle:-o | unbundle:--output) ;;
      stages:--radio | stages:--frame | stages:--csv | stages:--npz | stages:--mat | stages:--readmemh) ;;
      sweep:--bandwidth) words='20 40' ;;
      sweep:--estimate) words='perfect ls' ;;
      sweep:--radio | sweep:--mcs | sweep:--length | sweep:--antennas | sweep:--decay | sweep:--channel | sweep:--profile | sweep:--seed | sweep:--snr | sweep:--frames | sweep:--errors | sweep:--chunk | sweep:--detector | sweep:--processes | sweep:--scheduler | sweep:--part | sweep:-o | sweep:--output | sweep:--picture | sweep:--csv | sweep:--json) ;;
      merge:-o | merge:--output | merge:--picture | merge:--csv | merge:--json) ;;
      picture:picture) words='constellation evm residual distances sweep spectrum preamble tracking' ;;
      picture:--datatype) words='cf32_be cf32_le cf64_be cf64_le ci16_be ci16_le ci32_be ci32_le ci8 cu8' ;;
      picture:--radio | picture:--frame | picture:--answers | picture:--sample-rate | picture:--channels | picture:--variable) ;;
      report:--radio | report:-o | report:--output | report:--theirs | report:--sweep | report:--frequency | report:--reference-ppm | report:--shift | report:--pictures | report:--title) ;;
      waveform:--datatype) words='cf32_le ci16_le' ;;
      waveform:--bits) words='2 3 4 5 6 7 8 9 10 11 12 13 14 15 16' ;;
      waveform:--guard) words='long short' ;;
      waveform:--stbc) words='0 1 2' ;;
      waveform:--rate) words='20 40 60 80 100 120 200' ;;
      waveform:-o | waveform:--output | waveform:--antennas | waveform:--spread | waveform:--offset | waveform:--frequency | waveform:--snr | waveform:--gap | waveform:--dc | waveform:--dc-drift | waveform:--neighbour | waveform:--clock | waveform:--leakage | waveform:--filter | waveform:--gains | waveform:--error | waveform:--lost | waveform:--seed) ;;
      record:--datatype) words='cf32_be cf32_le cf64_be cf64_le ci16_be ci16_le ci32_be ci32_le ci8 cu8' ;;
      record:--sample-rate | record:--channels | record:--variable | record:--shift | record:--channel | record:--processes | record:--from | record:--to | record:--packets | record:-o | record:--output | record:--gain | record:--legacy | record:--csv | record:--json) ;;
      receive:--datatype) words='cf32_be cf32_le cf64_be cf64_le ci16_be ci16_le ci32_be ci32_le ci8 cu8' ;;
      receive:--radio | receive:--sample-rate | receive:--channels | receive:--variable | receive:--shift | receive:--channel | receive:--processes | receive:--from | receive:--to | receive:--packets | receive:-o | receive:--output | receive:--full-scale | receive:--sent | receive:--truth | receive:--csv | receive:--json) ;;
      verdict:--datatype) words='cf32_be cf32_le cf64_be cf64_le ci16_be ci16_le ci32_be ci32_le ci8 cu8' ;;
      verdict:--sample-rate | verdict:--channels | verdict:--variable | verdict:--shift | verdict:--channel | verdict:--processes | verdict:--frequency | verdict:--reference-ppm | verdict:--csv | verdict:--json) ;;
      challenge:challenge) words='sensitivity adjacent nonadjacent judge' ;;
      challenge:--bandwidth) words='20 40' ;;
      challenge:--radio | challenge:--mcs | challenge:--packets | challenge:--length | challenge:--full-scale | challenge:--seed | challenge:--csv | challenge:--json) ;;
      *)
        if [[ $word == -* ]]; then
          case ${COMP_WORDS[1]} in
            judge) words='--radio --force --reference --soft --json --list --complete --without --stated --help' ;;
            check) words='--help' ;;
            capture) words='--force --output --gain --format --help' ;;
            example) words='--force --bandwidth --mcs --length --antennas --decay --channel --profile --estimate --seed --snr --output --sent --help' ;;
            show) words='--help' ;;
            answers) words='--radio --force --command --output --processes --scheduler --part --help' ;;
            measure) words='--radio --force --answers --sent --octets --untracked --json --csv --help' ;;
            packets) words='--radio --force --answers --aggregated --output --csv --json --help' ;;
            frames) words='--force --output --bandwidth --mcs --seed --aggregate --fcs --help' ;;
            bundle) words='--force --output --help' ;;
            unbundle) words='--force --output --help' ;;
            stages) words='--radio --force --frame --csv --npz --mat --readmemh --help' ;;
            sweep) words='--radio --force --bandwidth --mcs --length --antennas --decay --channel --profile --estimate --seed --snr --frames --errors --chunk --detector --soft --processes --scheduler --part --output --resume --picture --csv --json --help' ;;
            merge) words='--force --output --picture --csv --json --help' ;;
            picture) words='--radio --force --frame --answers --datatype --sample-rate --channels --variable --help' ;;
            report) words='--radio --force --output --theirs --sweep --frequency --reference-ppm --shift --pictures --title --help' ;;
            zero-forcing) words='--help' ;;
            waveform) words='--force --output --datatype --bits --raw --guard --aggregated --stbc --greenfield --antennas --spread --offset --frequency --snr --gap --rate --dc --dc-drift --neighbour --nonadjacent --clock --leakage --filter --gains --error --lost --seed --help' ;;
            record) words='--force --datatype --sample-rate --channels --variable --shift --channel --processes --from --to --packets --output --gain --legacy --annotate --csv --json --help' ;;
            receive) words='--radio --force --datatype --sample-rate --channels --variable --shift --channel --processes --from --to --packets --output --soft --full-scale --sent --truth --csv --json --help' ;;
            verdict) words='--force --datatype --sample-rate --channels --variable --shift --channel --processes --frequency --reference-ppm --complete --csv --json --help' ;;
            challenge) words='--radio --force --bandwidth --mcs --packets --length --full-scale --seed --complete --csv --json --help' ;;
          esac
        fi
        ;;
    esac
  fi
  if [ -n "$words" ]; then
    mapfile -t COMPREPLY < <(compgen -W "$words" -- "$word")
  else
    compopt -o filenames 2>/dev/null
    mapfile -t COMPREPLY < <(compgen -f -- "$word")
  fi
}
complete -F _mizgaure mizgaure
