#!/usr/bin/env bash
# Makes the encoder's frames again: two frames of each stream, written into the directory given (default: made).
# Needs ffmpeg (its encoders ac3, ac3_fixed, eac3) and espeak-ng. The kept files come from ffmpeg 5.1.9 on aarch64;
# another version or machine may round elsewhere and give other bytes, so nothing compares them with a new run.
set -eu
to=${1:-made}
mkdir -p "$to"
cd "$to"
espeak-ng -w speech.wav "The frame may begin at any byte place of a longer capture."

# content_of KIND RATE: the input's options, one to a line
content_of() {
    case $1 in
    speech) printf '%s\n' -ss 0.35 -i speech.wav ;;
    noise) printf '%s\n' -f lavfi -i "anoisesrc=r=$2:color=pink:seed=7:amplitude=0.6:d=1" ;;
    tones) printf '%s\n' -f lavfi -i "aevalsrc=exprs='0.4*sin(2*PI*(200+3000*t)*t)+0.2*sin(2*PI*880*t)+0.3*sin(2*PI*60*t)*mod(floor(t*90)\,2)':s=$2:d=1" ;;
    silence) printf '%s\n' -f lavfi -i "anullsrc=r=$2:d=1" ;;
    esac
}

# stream NAME ENCODER KIND RATE LAYOUT KBIT [ENCODER'S OPTIONS]
stream() {
    local name=$1 encoder=$2 kind=$3 rate=$4 layout=$5 kbit=$6
    shift 6
    local input
    mapfile -t input < <(content_of "$kind" "$rate")
    ffmpeg -nostdin -hide_banner -loglevel error -y -bitexact -threads 1 "${input[@]}" \
        -af "aformat=sample_rates=$rate:channel_layouts=$layout" -frames:a 2 \
        -c:a "$encoder" -b:a "${kbit}k" "$@" -f "${encoder%_fixed}" "$name.ac3"
}

# Every layout that the encoder takes (all of acmod 1 to 7, with LFE but for 2/2) at the three sample rates.
layouts=(mono stereo "3.0" "3.0(back)" "4.0" "quad(side)" "5.0(side)" "FC+LFE" "2.1" "3.1" "FL+FR+LFE+BC" "4.1" "5.1(side)")
named=(1_0 2_0 3_0 2_1 3_1 2_2 3_2 1_0_lfe 2_0_lfe 3_0_lfe 2_1_lfe 3_1_lfe 3_2_lfe)
lower=(64 96 128 128 160 192 224 80 112 160 160 192 256)
higher=(160 256 320 320 384 384 448 192 256 320 320 384 448)
for i in "${!layouts[@]}"; do
    stream "layout-48000-${named[i]}-noise" ac3 noise 48000 "${layouts[i]}" "${lower[i]}"
    stream "layout-44100-${named[i]}-speech" ac3 speech 44100 "${layouts[i]}" "${higher[i]}"
    stream "layout-32000-${named[i]}-tones" ac3 tones 32000 "${layouts[i]}" "${lower[i]}"
done

# Every bit rate: 2/0 over four kinds of content in turn, 1/0 at the low and 3/2 with LFE at the high end.
kinds=(speech noise tones silence)
n=0
for kbit in 32 40 48 56 64 80 96 112 128 160 192 224 256 320 384 448 512 576 640; do
    stream "rate-$(printf %03d "$kbit")-2_0-${kinds[n % 4]}" ac3 "${kinds[n % 4]}" 48000 stereo "$kbit"
    n=$((n + 1))
done
for kbit in 32 48 96; do stream "rate-$(printf %03d "$kbit")-1_0-speech" ac3 speech 44100 mono "$kbit"; done
for kbit in 192 384 640; do stream "rate-$kbit-3_2_lfe-noise" ac3 noise 32000 "5.1(side)" "$kbit"; done

# What the header may hold, the alternate syntax of bsid 6 among it.
stream header-6-surround-ex ac3 speech 48000 "5.1(side)" 192 -dsurex_mode on -dheadphone_mode on -ad_conv_type hdcd
stream header-6-headphone ac3 speech 48000 stereo 64 -dsurex_mode off -dheadphone_mode off -ad_conv_type standard
stream header-6-downmix ac3 speech 44100 "5.1(side)" 192 -dmix_mode ltrt -ltrt_cmixlev 0.7 -ltrt_surmixlev 0.5 -loro_cmixlev 0.7 -loro_surmixlev 0.5
stream header-6-both ac3 tones 32000 "5.0(side)" 192 -dmix_mode loro -loro_cmixlev 1.0 -dsurex_mode on -ad_conv_type hdcd
stream header-production ac3 speech 48000 stereo 96 -dialnorm -20 -mixing_level 90 -room_type large -copyright 1 -original 0 -dsur_mode on
stream header-mix-levels ac3 speech 48000 "5.0(side)" 192 -center_mixlev 0.707 -surround_mixlev 0.707 -room_type small -mixing_level 105

# Coupling on and off, each start, rematrixing off, bandwidths, and the integer encoder.
for start in 0 1 2 3 5 8 11 15; do stream "coupling-$(printf %02d "$start")-2_0-noise" ac3 noise 48000 stereo 96 -channel_coupling 1 -cpl_start_band "$start"; done
stream coupling-03-3_2_lfe-tones ac3 tones 48000 "5.1(side)" 256 -channel_coupling 1 -cpl_start_band 3
stream coupling-07-2_2-noise ac3 noise 44100 "quad(side)" 192 -channel_coupling 1 -cpl_start_band 7
stream coupling-off-2_0-noise ac3 noise 48000 stereo 128 -channel_coupling 0
stream coupling-off-3_2-noise ac3 noise 32000 "5.0(side)" 256 -channel_coupling 0
stream rematrixing-off ac3 tones 48000 stereo 96 -stereo_rematrixing 0
stream cutoff-8000 ac3 speech 48000 stereo 96 -cutoff 8000
stream cutoff-20000 ac3 noise 48000 stereo 192 -cutoff 20000
stream fixed-2_0 ac3_fixed speech 48000 stereo 128
stream fixed-3_2_lfe ac3_fixed noise 44100 "5.1(side)" 256

# Refused on purpose: E-AC-3, whose header the AC-3 parser misreads before it meets bsid.
stream refused-eac3-2_0 eac3 speech 48000 stereo 64
stream refused-eac3-3_2_lfe eac3 noise 44100 "5.1(side)" 192
rm -f speech.wav
du -cb ./*.ac3 | tail -1
