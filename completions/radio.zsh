#compdef radio
# Completion of radio for zsh, written by docs/words.
local -a commands
commands=(
  'detect:reads a capture (HTCP) as it comes; writes a line for each subcarrier that is present in each symbol'
  'rx:reads a capture (HTCP) as it comes; writes a line for each frame, with its octets'
  'soft:reads a capture (HTCP) as it comes; writes a line for each frame, with its octets, decoded by soft decisions'
  'many:reads a bundle of captures (HTMB) whole; writes a line for each of its captures, and after it the lines of its frames'
  'tx:reads a file of frames (HTTX) whole; writes the file of their symbols (HTSY)'
  'channel:reads a file of symbols (HTSY) whole; writes a capture of them, of version 1, after a random channel'
  'upgrade:reads a capture (HTCP) whole; writes the capture of version 2 of its frames'
  'certify:reads a capture (HTCP) whole; writes the file of certificates (HTCT) of its data jobs'
  'check:reads a file of certificates (HTCT) as it comes; writes a line for each certificate that says whether it holds'
  'lchannel:reads a file of clause 18 frames (LGTX) whole; writes a capture of them (LGCP), after a random channel'
  'lrx:reads a capture of clause 18 frames (LGCP) as it comes; writes a line for each frame, with its octets'
  'demo:reads nothing; writes a line of totals for generated test frames, sent and received'
)
if (( CURRENT == 2 )); then
  _describe command commands
  compadd -- --help --version
  return
fi
local command=${words[2]}
shift words
(( CURRENT-- ))
case $command in
  detect)
    _arguments \
      '--workers[threads that detect, including the calling one, 1 to 64]:workers:' \
      '--window[maximum number of jobs in flight, 1 to 4096]:window:' ;;
  rx)
    _arguments \
      '--workers[threads that detect, including the calling one, 1 to 64]:workers:' \
      '--window[maximum number of jobs in flight, 1 to 4096]:window:' ;;
  soft)
    _arguments \
      '--workers[threads that detect, including the calling one, 1 to 64]:workers:' \
      '--window[maximum number of jobs in flight, 1 to 4096]:window:' ;;
  many)
    _arguments \
      '--workers[threads that detect, including the calling one, 1 to 64]:workers:' \
      '--window[maximum number of jobs in flight, 1 to 4096]:window:' ;;
  channel)
    _arguments \
      '--seed[seed of the generator of channels and of sample frames, 0 to 18446744073709551615]:seed:' \
      '--noise[largest noise in each part of a sample, 0 to 65535]:noise:' ;;
  lchannel)
    _arguments \
      '--seed[seed of the generator of channels and of sample frames, 0 to 18446744073709551615]:seed:' \
      '--noise[largest noise in each part of a sample, 0 to 65535]:noise:' ;;
  lrx)
    _arguments \
      '--workers[threads that detect, including the calling one, 1 to 64]:workers:' \
      '--window[maximum number of jobs in flight, 1 to 4096]:window:' ;;
  demo)
    _arguments \
      '--seed[seed of the generator of channels and of sample frames, 0 to 18446744073709551615]:seed:' \
      '--noise[largest noise in each part of a sample, 0 to 65535]:noise:' \
      '--frames[number of sample frames, 1 to 64]:frames:' \
      '--mcs[MCS index of sample frames, 0 to 31]:mcs:' \
      '--bandwidth[bandwidth of sample frames in MHz, 20 or 40]:bandwidth:(20 40)' \
      '--length[octets of each sample frame, 1 to 65535]:length:' \
      '--workers[threads that detect, including the calling one, 1 to 64]:workers:' \
      '--window[maximum number of jobs in flight, 1 to 4096]:window:' ;;
esac
