#!/usr/bin/env python3
"""Spells the names of definitions in snake case: once, at the top of a checkout whose definitions are in camel case.

A name is turned in .antt files, in .rt files and in the documents. Names of types, records and modules stay.
Two names would have fallen together and are turned first, see FIRST.
"""
import pathlib
import re

# Names that would otherwise be spelled like another: the lemma beside the definition `sameKind`.
FIRST = {"same_kind": "same_kind-equal"}

NAMES = """
aCount aLoop aMask aText aVersion accessText ackText adminOff adminOn afterPoint allDigits
anAccess answerText asMask badMaskOrText badNumber badValue bareMinus barePoint beforePoint
bytesIn callNumber cellCount cellNamed cellRead cellTold cellValue cellWritten chooseLoop
commandOf courseOf digitChar echoOf emptyField emptyLine fieldRefusal fieldsAfter firstOfLine
firstOfRequest fiveDigits foundCell fourDigits fractionDigits fractionFew furtherRefusal goalIn
hasPoint heatLine highByte highI highRange highV hottestOf imageContents inOtherLoop inSameLoop
isActive isAdmin isLimit isMask isNum isPanel isPassword isQuery isRate isSave isSwitchOn isText
isVoltage isWords isWrite lawfulMask lawfulNumber lawfulPassword lawfulText leftByReset
lineNumber lineRefusal linesFirst loopChosen loopNamed loopOrQuery loopText lowI lowRange lowV
lowZero magnetMeaning magnetStart maskIn mayChoose millionthsOf movedBy nakText namedAmong
namesNone nineDigits noColon noCommand noDigits noLeading noMatch noMinusZero noNumber
noNumberIn noQuestion noSuch noTrailing noWhole notAllowed numberOrQuery numeralOf ofForm ofLine
ofRequest ofZ-small onGround onlyOff onlyRequests orAbsent orAbsent-long outsideLimits
outsideRating paceIn paceOf panelInRemote placeAfter printCount printMask printNoBits
printSmallest printZero printedMask printedParts queryAbove ranBy rateAsked rateGiven rateIn
rateNotPositive readFrom readIndex readLargest readMask readMinusZero readNegative readZeros
readingsAt readingsOf recordingMeaning recordingStart recordsOf refusalOf registerOf requestOf
requestRefusal requestedBy roleAsked roleOf sameBit sameKind sameLoop sameWord sensorAsked
sensorThere setRate setpointAsked setpointOf sevenDecimals shownOf signText socketInLocal spanI
spanV standardRatings storedOf switchOff switchOn switchedOff switchedOn tableContents
tableStart tailOf targetAsked temperatureAt textByte textBytes textIn textWithColon tickTrips
tickedBy toldOf toldText tooFew tooLong tooMany tripBits tripLines tripStanding twoDigits
valueIn valueRefusal valuesIn whileOff whileOn wholeDigits wholeFew wholeSome wordGiven
wordOrQuery workingOf writeAsked writeCell wrongWord zeroHigh
""".split()


def snake(name):
    return re.sub(r"(?<=[a-z0-9])([A-Z])", lambda m: "_" + m.group(1).lower(), name)


def turned(text, names):
    word = r"(?<![\w\-'])(" + "|".join(sorted(map(re.escape, names), key=len, reverse=True)) + r")(?![\w\-'])"
    return re.sub(word, lambda m: names[m.group(1)], text)


def main():
    files = [f for ending in ("antt", "rt") for f in pathlib.Path("crates").rglob("*." + ending)]
    files += list(pathlib.Path("docs").glob("*.md")) + [pathlib.Path("README.md")]
    names = {name: snake(name) for name in NAMES}
    for file in files:
        if "out" in file.parts:
            continue
        old = file.read_text(encoding="utf8")
        first = turned(old, FIRST) if file.suffix == ".antt" else old
        new = turned(first, names)
        if new != old:
            file.write_text(new, encoding="utf8")


if __name__ == "__main__":
    main()
