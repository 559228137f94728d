"""Packets as complex samples: waveforms for other receivers, and from a recording of a radio to a capture.

``docs/RECORDINGS.md`` of the repository has the way of a packet, with pictures, and what is assumed.

================  ===================================================================================
``standard``      the fields of a packet, subcarrier by subcarrier
``form``          its form: guard interval, space-time streams, and where its fields stand
``stbc``          space-time block coding: pairs of symbols, and these combined
``signal``        the bits and the code of L-SIG and HT-SIG
``waveform``      a packet in time, as a receiver with a clock of its own samples it
``simulate``      a recording of packets behind channels, offsets and noise
``samples``       samples in a file, and a recording as the front end reads it, in pieces
``sigmf``         SigMF: recordings, archives, collections, annotations
``arrays``        .npy, and .mat of MATLAB
``recording``     recordings opened, whatever they are kept in, and written
``resampled``     recordings at other rates, or with another middle
``placing``       where no packet is found: a band beside the middle, or what is likely wrong
``part``          a part of a recording, by time or the number of its packets
``pieces``        a recording in pieces that overlap, without the antennas' levels
``channels``      the parts of 20 MHz in which packets are looked for
``synchronise``   where packets are in a channel: the short and the long training
``search``        the packets of all channels and pieces, by one process or several
``fourier``       transforms in single precision
``spectra``       a packet's samples, and transforms of windows of them
``headers``       L-SIG and HT-SIG as they are heard, and why a packet isn't in a capture
``track``         drift, phase, and the channel's smoothing and place in time
``receive``       all of a packet: from its long training to received vectors
``legacy``        packets of clause 18, and a capture of them
``record``        all packets of a recording, and a capture of them
``tally``         packets counted against those that were sent
``transmitter``   the standard's transmitter tests on the packets of a recording
``challenge``     its receiver tests as recordings, and what a device answers
``limits``        the limits of both, in one table
``pictures``      recordings drawn; needs matplotlib, as ``verdict_pictures``, the tests drawn
================  ===================================================================================

From Python, with a recording ``air.sigmf-meta`` and ``air.sigmf-data``:

    from mizgaure.air.record import packets_in
    from mizgaure.air.recording import open_recording

    with open_recording("air") as recording:
        for packet in packets_in(recording):
            print(packet.sample, packet.left_out or packet.signal, packet.offset)

A packet that isn't left out has a ``frame``, which `mizgaure.capture` takes. Sizes of fields and windows are in samples at 20
million a second where nothing else is said, and are multiplied by the oversampling, which is 2 at 40 million.
"""
