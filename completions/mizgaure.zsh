#compdef mizgaure
# Completion of mizgaure for zsh, written by completions/make.
local -a commands
commands=(
  'judge:judge another receiver'\''s answers to a capture'
  'check:judge certificates of detection, by a checker that shares nothing with radio'
  'capture:make a capture from channels and received vectors in floating point'
  'example:make a frame behind a random channel, to try capture on'
  'show:say what a file (HTCP, HTTX, HTSY) holds, or where it is at fault'
  'answers:run radio on a capture, with a progress bar, and keep its answers'
  'measure:measure error vector magnitude and error rates'
  'packets:say what MPDUs the frames of a capture carry, and write them for Wireshark'
  'frames:make a file of frames (HTTX) from MPDUs, as hexadecimal lines or a pcap file'
  'bundle:put captures into a bundle (HTMB), for radio many'
  'unbundle:take the captures out of a bundle (HTMB)'
  'stages:write what each stage of the chain has for a frame, forwards or backwards'
  'sweep:find error rates over the signal-to-noise ratio, over random channels'
  'merge:put the parts of a sweep together'
  'picture:draw a frame of a capture, a sweep, or a recording'
  'report:write a page on captures, recordings and sweeps: measures, verdicts, pictures'
  'zero-forcing:answer a capture by a zero-forcing detector, as an example of another receiver'
  'waveform:write the packets of a file of symbols as a recording of complex samples'
  'record:make a capture of the packets of a recording'
  'receive:receive the packets of a recording to their octets'
  'verdict:hold the packets of a recording beside the standard'\''s limits for transmitters'
  'challenge:write the standard'\''s receiver tests as recordings, and judge what a device answers'
)
if (( CURRENT == 2 )); then
  _describe command commands
  _arguments '--help[say more]' '--version[say the version]'
  return
fi
local command=${words[2]}
shift words
(( CURRENT-- ))
case $command in
  judge)
    _arguments \
      '--radio[the program radio]:program:_files' \
      '--force[overwrite a file that is there already]' \
      '--reference[kept lines of radio detect and radio rx, or with --soft of radio soft, in place of running it]:lines:_files' \
      '--soft[the answers are a soft decoder'\''s\: compare its octets with those of radio soft]' \
      '--json[write all verdicts as JSON lines]:file:_files' \
      '--list[print at most N of each kind of mistakes]:n:' \
      '--complete[end with status 1 also where a job or a frame has no answer]' \
      '--without[the receiver answers no jobs, or no frames\: none of them is missing]:without:(jobs frames)' \
      '--stated[end with status 1 also where a distance, a sum or a number of frames is misstated]' \
      '--help[say more]' \
      '1:capture:_files' \
      '2:answers:_files' ;;
  check)
    _arguments \
      '--help[say more]' \
      '1:file:_files' ;;
  capture)
    _arguments \
      '--force[overwrite a file that is there already]' \
      {-o,--output}'[the capture (HTCP) to write; - is standard output]:file:_files' \
      '--gain[what to multiply with before rounding\: a number, soft, which fits soft decisions, or largest, which is the largest that fits]:gain:' \
      '--format[the version of the capture]:format:(1 2)' \
      '--help[say more]' \
      '*:frame:_files' ;;
  example)
    _arguments \
      '--force[overwrite a file that is there already]' \
      '--bandwidth[in MHz]:bandwidth:(20 40)' \
      '--mcs[0 to 31]:mcs:' \
      '--length[octets of a frame]:length:' \
      '--antennas[receive antennas]:antennas:' \
      '--decay[samples by which the power of the taps of exponential falls by e]:decay:' \
      '--channel[exponential, flat, tapped, tgn-b, tgn-d, awgn, or a function as FILE.py\:NAME]:channel:' \
      '--profile[of the channel tapped, as 0\:0,50\:-3,110\:-7.5]:ns:db,:' \
      '--estimate[what the receiver knows of the channel]:estimate:(perfect ls)' \
      '--seed[of the random numbers]:seed:' \
      '--snr[in dB]:snr:' \
      {-o,--output}'[the frame to write, as capture reads it]:frame:_files' \
      '--sent[write what was sent as a file of symbols (HTSY)]:file:_files' \
      '--help[say more]' ;;
  show)
    _arguments \
      '--help[say more]' \
      '1:file:_files' ;;
  answers)
    _arguments \
      '--radio[the program radio]:program:_files' \
      '--force[overwrite a file that is there already]' \
      '--command[what radio does]:command:(detect rx)' \
      {-o,--output}'[where to write; arrays where it ends in .npz, lines otherwise]:file:_files' \
      '--processes[how many share the work]:n:' \
      '--scheduler[let the workers of this scheduler of dask.distributed do it, as tcp\://HOST\:8786]:address:' \
      '--part[do part K of N alone\: of the frames, in a row; the parts'\'' lines one behind the other are those of all]:k/n:' \
      '--help[say more]' \
      '1:capture:_files' ;;
  measure)
    _arguments \
      '--radio[the program radio]:program:_files' \
      '--force[overwrite a file that is there already]' \
      '--answers[kept lines of radio detect and radio rx, in place of running it; once for each capture]:lines:_files' \
      '--sent[what was sent\: a file of frames (HTTX) or of symbols (HTSY); once for each capture]:file:_files' \
      '--octets[what was sent\: the octets of all frames, one behind the other; once for each capture]:file:_files' \
      '--untracked[leave the phase of each symbol where it is, where pilots have other signs]' \
      '--json[write the measures as JSON lines]:file:_files' \
      '--csv[write the measures as a table, a row a frame]:file:_files' \
      '--help[say more]' \
      '*:capture:_files' ;;
  packets)
    _arguments \
      '--radio[the program radio]:program:_files' \
      '--force[overwrite a file that is there already]' \
      '--answers[kept lines of radio rx, in place of running it]:lines:_files' \
      '--aggregated[whether the frames are A-MPDUs]:aggregated:(yes no guess)' \
      {-o,--output}'[write the MPDUs with radiotap headers (pcap, or pcapng where it ends in .pcapng), as Wireshark reads them]:file:_files' \
      '--csv[write a table as CSV]:file:_files' \
      '--json[write the same records as JSON lines]:file:_files' \
      '--help[say more]' \
      '1:capture:_files' ;;
  frames)
    _arguments \
      '--force[overwrite a file that is there already]' \
      {-o,--output}'[the file of frames (HTTX) to write; - is standard output]:file:_files' \
      '--bandwidth[in MHz]:bandwidth:(20 40)' \
      '--mcs[0 to 31]:mcs:' \
      '--seed[of the scrambler, 1 to 127]:seed:' \
      '--aggregate[put N MPDUs in a row into an A-MPDU]:n:' \
      '--fcs[of hexadecimal lines\: add it, see that it is there and right, or keep what is there]:fcs:(add there keep)' \
      '--help[say more]' \
      '1:file:_files' ;;
  bundle)
    _arguments \
      '--force[overwrite a file that is there already]' \
      {-o,--output}'[the bundle (HTMB) to write; - is standard output]:file:_files' \
      '--help[say more]' \
      '*:capture:_files' ;;
  unbundle)
    _arguments \
      '--force[overwrite a file that is there already]' \
      {-o,--output}'[where to write capture-00.htcp and so on; it is made where it isn'\''t there]:folder:_files' \
      '--help[say more]' \
      '1:file:_files' ;;
  stages)
    _arguments \
      '--radio[the program radio]:program:_files' \
      '--force[overwrite a file that is there already]' \
      '--frame[this frame alone, from 0]:n:' \
      '--csv[write a row for each value in place of the text]:file:_files' \
      '--npz[write arrays for numpy]:file:_files' \
      '--mat[write arrays for MATLAB and Octave]:file:_files' \
      '--readmemh[write a file of words for each stage, as Verilog reads them]:folder:_files' \
      '--help[say more]' \
      '1:file:_files' ;;
  sweep)
    _arguments \
      '--radio[the program radio]:program:_files' \
      '--force[overwrite a file that is there already]' \
      '--bandwidth[in MHz]:bandwidth:(20 40)' \
      '--mcs[0 to 31]:mcs:' \
      '--length[octets of a frame]:length:' \
      '--antennas[receive antennas]:antennas:' \
      '--decay[samples by which the power of the taps of exponential falls by e]:decay:' \
      '--channel[exponential, flat, tapped, tgn-b, tgn-d, awgn, or a function as FILE.py\:NAME]:channel:' \
      '--profile[of the channel tapped, as 0\:0,50\:-3,110\:-7.5]:ns:db,:' \
      '--estimate[what the receiver knows of the channel]:estimate:(perfect ls)' \
      '--seed[of the random numbers]:seed:' \
      '--snr[in dB, as 0\:20\:5 or 3,7.5,12]:snr:' \
      '--frames[frames of each point]:frames:' \
      '--errors[end a point once so many of its frames are in error]:errors:' \
      '--chunk[frames that are done in one go]:n:' \
      '--detector[one more detector\: zero-forcing, soft, a function as FILE.py\:NAME, or a command; may come again]:name=words:' \
      '--soft[decode the same captures with radio soft, too, as the detector soft=soft]' \
      '--processes[how many share the work]:n:' \
      '--scheduler[let the workers of this scheduler of dask.distributed do it, as tcp\://HOST\:8786]:address:' \
      '--part[do part K of N alone\: every N-th chunk from the K-th on]:k/n:' \
      {-o,--output}'[keep the outcome as JSON lines, as it comes]:file:_files' \
      '--resume[go on with what the output has of this sweep already]' \
      '--picture[draw it]:file:_files' \
      '--csv[write a table as CSV]:file:_files' \
      '--json[write the same records as JSON lines]:file:_files' \
      '--help[say more]' ;;
  merge)
    _arguments \
      '--force[overwrite a file that is there already]' \
      {-o,--output}'[keep the whole as JSON lines]:file:_files' \
      '--picture[draw it]:file:_files' \
      '--csv[write a table as CSV]:file:_files' \
      '--json[write the same records as JSON lines]:file:_files' \
      '--help[say more]' \
      '*:file:_files' ;;
  picture)
    _arguments \
      '--radio[the program radio]:program:_files' \
      '--force[overwrite a file that is there already]' \
      '--frame[the frame to draw]:frame:' \
      '--answers[kept lines of radio detect, in place of running it]:lines:_files' \
      '--datatype[the file has samples of this type alone, and isn'\''t SigMF]:datatype:(cf32_be cf32_le cf64_be cf64_le ci16_be ci16_le ci32_be ci32_le ci8 cu8)' \
      '--sample-rate[samples a second of a file of samples, .npy or .mat]:rate:' \
      '--channels[antennas of a file of samples]:channels:' \
      '--variable[the array of a .mat that has several]:name:' \
      '--help[say more]' \
      '1:kind:(constellation evm residual distances sweep spectrum preamble tracking)' \
      '2:file:_files' \
      '3:picture:_files' ;;
  report)
    _arguments \
      '--radio[the program radio]:program:_files' \
      '--force[overwrite a file that is there already]' \
      {-o,--output}'[the page (HTML) to write; it has its pictures inside]:file:_files' \
      '--theirs[another receiver'\''s answers, as judge reads them; once for each capture]:lines:_files' \
      '--sweep[what mizgaure sweep kept; may come again]:file:_files' \
      '--frequency[of the middle of the recorded band]:hz:' \
      '--reference-ppm[by how much the recorder'\''s own clock may be wrong]:ppm:' \
      '--shift[where the packets'\'' middle is, from the recordings'\'' middle]:hz:' \
      '--pictures[draw the first N frames of each capture]:n:' \
      '--title[the page'\''s title]:text:' \
      '--help[say more]' \
      '*:capture:_files' ;;
  zero-forcing)
    _arguments \
      '--help[say more]' \
      '1:capture:_files' ;;
  waveform)
    _arguments \
      '--force[overwrite a file that is there already]' \
      {-o,--output}'[the name of a SigMF recording (a .sigmf-meta and a .sigmf-data), or with --raw of a file of samples]:recording:_files' \
      '--datatype[of the samples]:datatype:(cf32_le ci16_le)' \
      '--bits[round the parts of samples to so many bits, 2 to 16, as a converter does]:n:(2 3 4 5 6 7 8 9 10 11 12 13 14 15 16)' \
      '--raw[write the samples alone]' \
      '--guard[the guard interval of data symbols]:guard:(long short)' \
      '--aggregated[say in HT-SIG that the octets are an A-MPDU]' \
      '--stbc[send so many more space-time streams than spatial streams, 1 or 2]:n:(0 1 2)' \
      '--greenfield[write packets in HT-greenfield format, and not in HT-mixed format]' \
      '--antennas[receive antennas]:antennas:' \
      '--spread[the delay spread in nanoseconds; 0, the default, wires antennas to streams]:ns:' \
      '--offset[of the oscillators, in parts per million]:ppm:' \
      '--frequency[of the carrier]:hz:' \
      '--snr[in dB, or none for no noise]:snr:' \
      '--gap[the silence between packets in microseconds]:us:' \
      '--rate[million samples a second]:rate:(20 40 60 80 100 120 200)' \
      '--dc[add a level of so many dB beside a packet]:db:' \
      '--dc-drift[turn it so often in a second]:hz:' \
      '--neighbour[add packets of so many dB beside the others in the channel above]:db:' \
      '--nonadjacent[put them into the channel behind that one]' \
      '--clock[of the symbol clock, in parts per million]:ppm:' \
      '--leakage[let the carrier leak with so many dB of a packet'\''s overall power]:db:' \
      '--filter[weaken what is sent beyond the channel by so many dB]:db:' \
      '--gains[give the subcarriers of these numbers these gains, straight in between, as -28\:-3,28\:3]:n:db,:' \
      '--error[add Gaussian errors to the points, of so many dB beside them]:db:' \
      '--lost[lose samples in the middle of every packet]:samples:' \
      '--seed[of the random numbers]:seed:' \
      '--help[say more]' \
      '1:symbols:_files' ;;
  record)
    _arguments \
      '--force[overwrite a file that is there already]' \
      '--datatype[the file has samples of this type alone, and isn'\''t SigMF]:datatype:(cf32_be cf32_le cf64_be cf64_le ci16_be ci16_le ci32_be ci32_le ci8 cu8)' \
      '--sample-rate[samples a second of a file of samples, .npy or .mat]:rate:' \
      '--channels[antennas of a file of samples]:channels:' \
      '--variable[the array of a .mat that has several]:name:' \
      '--shift[where the packets'\'' middle is, from the recording'\''s middle]:hz:' \
      '--channel[receive this channel, by the frequency that the recording says]:n:' \
      '--processes[how many look for packets]:n:' \
      '--from[packets from this time on, as lines say it]:seconds:' \
      '--to[packets before this time]:seconds:' \
      '--packets[no more than so many packets]:n:' \
      {-o,--output}'[the capture (HTCP) to write; - is standard output]:file:_files' \
      '--gain[what to multiply with before rounding, where the noise at an antenna has mean power 1\: a number, soft, which fits soft decisions]:gain:' \
      '--legacy[write the packets of clause 18 as a capture (LGCP)]:file:_files' \
      '--annotate[write the packets into the metadata of a SigMF recording, as annotations]' \
      '--csv[write a table as CSV]:file:_files' \
      '--json[write the same records as JSON lines]:file:_files' \
      '--help[say more]' \
      '*:recording:_files' ;;
  receive)
    _arguments \
      '--radio[the program radio]:program:_files' \
      '--force[overwrite a file that is there already]' \
      '--datatype[the file has samples of this type alone, and isn'\''t SigMF]:datatype:(cf32_be cf32_le cf64_be cf64_le ci16_be ci16_le ci32_be ci32_le ci8 cu8)' \
      '--sample-rate[samples a second of a file of samples, .npy or .mat]:rate:' \
      '--channels[antennas of a file of samples]:channels:' \
      '--variable[the array of a .mat that has several]:name:' \
      '--shift[where the packets'\'' middle is, from the recording'\''s middle]:hz:' \
      '--channel[receive this channel, by the frequency that the recording says]:n:' \
      '--processes[how many look for packets]:n:' \
      '--from[packets from this time on, as lines say it]:seconds:' \
      '--to[packets before this time]:seconds:' \
      '--packets[no more than so many packets]:n:' \
      {-o,--output}'[write the MPDUs with radiotap headers (pcap, or pcapng where it ends in .pcapng), as Wireshark reads them]:file:_files' \
      '--soft[decode HT packets by soft decisions, and say what they cost]' \
      '--full-scale[the power at an antenna whose samples have mean power 1; levels are in dBm then]:dbm:' \
      '--sent[count right, wrong and lost packets of so many that were sent]:n:' \
      '--truth[count them against these frames (HTTX), which were sent]:file:_files' \
      '--csv[write a table as CSV]:file:_files' \
      '--json[write the same records as JSON lines]:file:_files' \
      '--help[say more]' \
      '*:recording:_files' ;;
  verdict)
    _arguments \
      '--force[overwrite a file that is there already]' \
      '--datatype[the file has samples of this type alone, and isn'\''t SigMF]:datatype:(cf32_be cf32_le cf64_be cf64_le ci16_be ci16_le ci32_be ci32_le ci8 cu8)' \
      '--sample-rate[samples a second of a file of samples, .npy or .mat]:rate:' \
      '--channels[antennas of a file of samples]:channels:' \
      '--variable[the array of a .mat that has several]:name:' \
      '--shift[where the packets'\'' middle is, from the recording'\''s middle]:hz:' \
      '--channel[receive this channel, by the frequency that the recording says]:n:' \
      '--processes[how many look for packets]:n:' \
      '--frequency[of the middle of the recorded band]:hz:' \
      '--reference-ppm[by how much the recorder'\''s own clock may be wrong; without it there is no verdict on frequencies]:ppm:' \
      '--complete[end with status 1 also where a test has no verdict]' \
      '--csv[write a table as CSV]:file:_files' \
      '--json[write the same records as JSON lines]:file:_files' \
      '--help[say more]' \
      '*:recording:_files' ;;
  challenge)
    _arguments \
      '--radio[the program radio]:program:_files' \
      '--force[overwrite a file that is there already]' \
      '--bandwidth[in MHz]:bandwidth:(20 40)' \
      '--mcs[a recording for each]:m,:' \
      '--packets[of each recording]:n:' \
      '--length[octets of a packet]:l:' \
      '--full-scale[the power at an antenna whose samples have mean power 1]:dbm:' \
      '--seed[of the random numbers]:seed:' \
      '--complete[judge\: end with status 1 also where there is no verdict]' \
      '--csv[write a table as CSV]:file:_files' \
      '--json[write the same records as JSON lines]:file:_files' \
      '--help[say more]' \
      '1:what:(sensitivity adjacent nonadjacent judge)' \
      '2:folder:_files' ;;
esac
