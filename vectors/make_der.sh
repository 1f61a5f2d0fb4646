#!/bin/sh
# Prints der.txt: a line TYPE, then a line TEXT;HEX for each text of the type. The tag and the length are openssl's: it
# is handed the universal number of the tag, and as contents the text without the characters that X.690 8.24 removes.
set -eu
export LC_ALL=C

made=$(mktemp)
trap 'rm -f "$made"' EXIT

# vectors NUMBER REMOVED TYPE TEXT...: a type and its lines; REMOVED are the characters that tr deletes
vectors() {
    number=$1 removed=$2
    printf '%s\n' "$3"
    shift 3
    for text; do
        contents=$(printf %s "$text" | tr -d "$removed")
        openssl asn1parse -genstr "IMP:${number}U,UTF8:$contents" -noout -out "$made"
        printf '%s;%s\n' "$text" "$(od -An -v -tx1 "$made" | tr -d ' \n' | tr a-f A-F)"
    done
}

# 8.24.1, TIME: only quotation marks are removed
list() {
    vectors 14 '"' "$@"
}

# years YEAR: the ends of a Year setting, and a year inside it
years() {
    case $1 in
        Basic) echo 1582 2006 9999 ;;
        Proleptic) echo 0000 1066 1581 ;;
        Negative) echo -0001 -0044 -9999 ;;
        L5) echo +10000 +99999 -10000 -99999 ;;
        L6) echo +100000 +999999 -100000 -999999 ;;
        L7) echo +1000000 +9999999 -1000000 -9999999 ;;
        L8) echo +10000000 +99999999 -10000000 -99999999 ;;
        L9) echo +100000000 +999999999 -100000000 -999999999 ;;
    esac
}

# after_year DATE: a text that every year has
after_year() {
    case $1 in
        Y) echo '' ;;
        YM) echo -06 ;;
        YMD) echo -09-30 ;;
        YD) echo -164 ;;
        YW) echo -W24 ;;
        YWD) echo -W24-2 ;;
    esac
}

# before_fraction TIME: two texts of a Time setting
before_fraction() {
    case $1 in
        H) echo 15 23 ;;
        HM) echo 15:27 23:59 ;;
        HMS) echo 08:30:15 12:00:60 ;;
    esac
}

# zones ZONE: texts of a Local-or-UTC setting; the empty one is written as =
zones() {
    case $1 in
        L) echo = ;;
        Z) echo Z ;;
        LD) echo +00 -05:30 +15:59 ;;
    esac
}

# in_zone LOCAL ZONE-TEXT: the local time as it stands, but second 60 with Z or a difference at 23:59 UTC, by #102
in_zone() {
    case $1$2 in
        *:60Z | *:60+00) echo 23:59:60 ;;
        *:60-05:30) echo 18:29:60 ;;
        *:60+15:59) echo 15:58:60 ;;
        *) echo "$1" ;;
    esac
}

vectors_of_dates() {
    for date in Y YM YMD YD YW YWD; do
        for year in Basic Proleptic Negative L5 L6 L7 L8 L9; do
            set --
            for number in $(years $year); do
                set -- "$@" "$number$(after_year $date)"
            done
            list "Basic=Date Date=$date Year=$year" "$@"
        done
    done
}

# the number of a fraction's digits is the n of its Time setting
vectors_of_times() {
    for time in H HM HMS; do
        for fraction in '' .5 .25 .500 .0999 .10000 .123456 .0000007 .99999999 .123456789; do
            for zone in L Z LD; do
                set --
                for local in $(before_fraction $time); do
                    for end in $(zones $zone); do
                        set -- "$@" "$(in_zone "$local" "$end")$fraction${end#=}"
                    done
                done
                list "Basic=Time Time=$time${fraction:+F$((${#fraction} - 1))} Local-or-UTC=$zone" "$@"
            done
        done
    done
}

# each date with each Year setting and four times
vectors_of_date_times() {
    for date in Y YM YMD YD YW YWD; do
        for year in Basic Proleptic Negative L5 L6 L7 L8 L9; do
            number=$(years $year)
            start=${number##* }$(after_year $date)T
            type="Basic=Date-Time Date=$date Year=$year"
            list "$type Time=H Local-or-UTC=L" "${start}15" "${start}24"
            list "$type Time=HM Local-or-UTC=Z" "${start}15:27Z" "${start}24:00Z"
            list "$type Time=HMSF3 Local-or-UTC=L" "${start}15:27:46.500"
            list "$type Time=HMSF9 Local-or-UTC=LD" "${start}22:29:60.123456789-01:30" "${start}24:00:00.000000000+00"
        done
    done
}

# the same texts under a name and under its settings
vectors_of_names() {
    set -- 1582-01-01 1999-12-31 2000-02-29 2006-06-13 2008-02-29 2021-01-01 2276-12-31 9999-12-31
    vectors 31 '"-' DATE "$@"
    list 'Basic=Date Date=YMD Year=Basic' "$@"
    set -- 00:00:00 00:00:60 09:08:07 15:27:46 23:59:59 23:59:60 24:00:00
    vectors 32 '":' TIME-OF-DAY "$@"
    list 'Basic=Time Time=HMS Local-or-UTC=L' "$@"
    set -- 1582-10-15T00:00:00 2000-02-29T12:34:56 2006-06-13T15:27:46 2006-12-31T23:59:60 9999-12-31T24:00:00
    vectors 33 '":T-' DATE-TIME "$@"
    list 'Basic=Date-Time Date=YMD Year=Basic Time=HMS Local-or-UTC=L' "$@"
}

# two lists and more, and pairs in another order
vectors_of_other_lists() {
    list 'Basic=Date Date=Y Year=Basic|Basic=Date Date=Y Year=Proleptic' 2006 1066
    list 'Basic=Date Date=YMD Year=Proleptic|Basic=Date Date=YMD Year=Basic' 2006-06-13 1066-10-14
    list 'Basic=Date Date=YW Year=Negative|Basic=Date Date=YW Year=L5' -0044-W11 -10000-W52 +10004-W53
    list 'Year=L5 Date=YWD Basic=Date|Date=YWD Basic=Date Year=Negative' -0044-W11-3 -99999-W01-1
    list 'Basic=Date Date=YD Year=L6|Basic=Date Date=YD Year=Negative' -0044-366 +123456-366
    list 'Date=YW Basic=Date Year=L9|Year=L5 Basic=Date Date=YW|Basic=Date Year=L7 Date=YW' \
        +10004-W53 -1000000-W52 +999999620-W53 -999999980-W53
    type='Basic=Date Date=Y Year='
    list "${type}L5|${type}L6|${type}L7|${type}L8|${type}L9" +12345 -123456 +1234567 -12345678 +123456789
    list "${type}L9|${type}L8|${type}L7|${type}L6|${type}Negative" -0001 -123456 +1234567 -12345678 -999999999
    list 'Year=Basic Date=YMD Basic=Date' 2006-06-13
    list 'Local-or-UTC=LD Time=HM Basic=Time' 15:27+01
    list 'Basic=Date Date=YD Year=Basic' 2006-001 2006-365 2008-366
    list 'Basic=Date Date=YWD Year=Basic' 2020-W53-7 2021-W52-7
}

# one leap second, in UTC, behind it and ahead of it, where the next day has begun
vectors_of_a_leap_second() {
    list 'Basic=Date-Time Date=YMD Year=Basic Time=HMS Local-or-UTC=Z' 2005-12-31T23:59:60Z
    list 'Basic=Date-Time Date=YMD Year=Basic Time=HMS Local-or-UTC=LD' \
        2005-12-31T23:59:60+00 2005-12-31T18:59:60-05 2006-01-01T05:29:60+05:30 2006-01-01T00:59:60+01
}

# the same texts under the name, whose contents 8.24.5 leaves without P, and under the settings
vectors_of_durations() {
    set -- P1Y6M PT0.5S P1D P0M P1Y0M P0Y P0W P0D PT0H PT0M PT0S P5W P0.5W P10.25W P1.5Y P0.001M P7.1234D PT1.5H \
        PT0.000M PT0.00S P29M P29M0D P29MT0S P29MT0.00H P29MT0.000S P29MT0.00M PT72H P2Y10M15DT10H20M30S \
        P999999999Y PT999999999S P999999999.999999999W P999999999YT999999999.999999999S \
        P999999999M999999999DT999999999H
    vectors 34 '"P' DURATION "$@"
    list 'Basic=Interval Interval-type=D' "$@"
    list 'Interval-type=D Basic=Interval' P1YT1S PT1M P1M
}

vectors_of_names
vectors_of_dates
vectors_of_times
vectors_of_date_times
vectors_of_other_lists
vectors_of_a_leap_second
vectors_of_durations
