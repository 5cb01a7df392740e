#!/usr/bin/env bash
# make.sh FOLDER: writes inputs of the bench program, NAME.in, to the folder. NAME.expected beside this script has the line that paper 01,
# "Bench program and desk", asks for; the comment at each input derives it. Bytes after \x are in base sixteen.
set -euo pipefail
cd "$1"

# Row 6 of paper 01: the book L, the records 10:(20) 20:(10), the question (10, 10); then its sections, each after its length.
L='\x01\x02\x00\x02\x00\x00\x01\x00\x00\x01\x00\x00\x00\x01\x00\x01\x00\x01\x02\x01\x00\x02\x01'
pair='\x02\x0A\x00\x00\x00\x01\x14\x00\x00\x00\x14\x00\x00\x00\x01\x0A\x00\x00\x00'
around='\x00\x02\x0A\x00\x00\x00\x0A\x00\x00\x00'
book="\x17\x00$L"
snapshot="\x13\x00$pair"
question="\x0A\x00$around"

# An empty section for the book: the house book. The record 10:(0), the queue with free chain (10, 0) and (10, 10): rows 8 and 9.
ended='\x0A\x00\x01\x0A\x00\x00\x00\x01\x00\x00\x00\x00'
printf "\x00\x00$ended\x0A\x00\x02\x02\x0A\x00\x00\x00\x00\x00\x00\x00" >house.in
printf "\x00\x00$ended\x0A\x00\x02\x02\x0A\x00\x00\x00\x0A\x00\x00\x00" >house-not.in

# Row 8 with the end mark in field and question, which is nil; and the record at the mark, refusal 7.
mark='\xFF\xFF\xFF\xFF'
printf "\x00\x00\x0A\x00\x01\x0A\x00\x00\x00\x01$mark\x0A\x00\x02\x02\x0A\x00\x00\x00$mark" >marks.in
printf "\x00\x00\x0A\x00\x01$mark\x01\x00\x00\x00\x00\x0A\x00\x02\x02\x0A\x00\x00\x00$mark" >mark-address.in

# No byte at all: the house book, and a snapshot that ends where its count is due, refusal 5.
printf "" >empty.in

# A length beyond the input takes what there is. 65,535 for the question and its ten bytes: row 6. 65,535 for the book, so that it has
# all the bytes of row 6 that follow, which is more than L: refusal 4.
printf "$book$snapshot\xFF\xFF$around" >question-beyond.in
printf "\xFF\xFF$L$snapshot$question" >book-beyond.in

# A missing length byte counts as 0, and nothing follows it. Of the question's length only the lower byte is there: no question, refusal
# 9. Of the book's length only the lower byte, 23, is there: the house book, and no snapshot, refusal 5.
printf "$book$snapshot\x0A" >question-length-cut.in
printf "\x17" >book-length-cut.in

# What follows the question is not looked at: row 6.
printf "$book$snapshot$question\xFF\xFF\xFF" >bytes-after.in

# More than 4,096 bytes. The first 4,096 are row 6 and zeros; after them stands row 8, which has other figures: row 6.
# No reply can depend on a byte after these: a book that is read has at most 1,131 bytes, a snapshot 337 and a question 18, and the first
# byte too many is refused by 4, 8 or 9, so with the lengths at most 1,493 bytes matter.
{
  printf "$book$snapshot$question"
  head -c 4038 /dev/zero
  cat house.in
} >long.in
