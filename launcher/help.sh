# The help of the launcher: one function for each text.
# shellcheck shell=sh

help() {
    cat <<'TEXT'
usage: btrfs-offline COMMAND WORDS

Reads the raw images of the devices of one unmounted Btrfs filesystem. Only scrub start changes them, where -r isn't given.

  super IMAGES                         prints the newest valid superblock of the images
  inspect-internal dump-tree IMAGES    prints trees, block by block: all of them, or by one of these options
      -b ADDR                          the block at a logical address
      -t N                             the tree of an id
      -r                               a line for each tree: where its root block stands
  inspect-internal logical-resolve ADDR IMAGES
                                       prints which files have the bytes at a logical address, by all of their names
  check IMAGES                         prints what is wrong with the filesystem, a line for each finding
      --check-data-csum                reads all data that has a checksum too
  scrub start IMAGES                   reads each copy of each block that has a checksum, and writes the bad ones anew
      -r                               only reads, and counts them
  restore DEST IMAGES                  copies the directories and files of a subvolume into the folder DEST
      -r N                             the subvolume of an id; without it the top one, 5
      -s                               snapshots in it too
      -v                               names each directory and file
      -D                               names them, and writes nothing
      -i                               goes on past blocks that are lost, and lists what is missing
  send DEST NAME IMAGES                writes a subvolume as one stream, into the file NAME in the folder DEST
      -r N                             the subvolume of an id; without it the top one, 5
  restore -l IMAGES                    prints the same lines as dump-tree -r
  self-test N                          tries check, restore and scrub on a volume that it makes in memory

  COMMAND --help    says more of a command
  --help, -h, help  prints this text
  --version         prints the version
  --build           builds the program anew where its sources or the kit have changed, and goes on with the words after it

IMAGES are files or block devices, at most 64. A name must be valid UTF-8: one that isn't is refused as a usage error,
at its number. A link with another name helps. A name that begins with - is written ./-NAME.

Exit status: 0 all was done, 1 a block is damaged or lost, something was found, or entries were skipped and named, 2 the
words are no command, 3 the images can't be read or checked here, there is no such tree or device, or an image that would be
written is mounted, 4 an image, the destination or the output failed, or a block could not be read, 5 out of memory. In a
checkout also 126 where the program can't be built, and 127 where rt, which builds it, isn't on the PATH.
TEXT
}

help_super() {
    cat <<'TEXT'
usage: btrfs-offline super IMAGE [IMAGE ..]

Prints the newest valid superblock of the images. Each image has up to three copies, at 65536, 67108864 and 274877906944.
All are looked at; a copy is valid where its magic, its place, its checksum type and its checksum are right. The copy of
the greatest generation counts, the first of equals. The first line says in which image it stands, counted from 0.

An image without a valid copy ends the call with status 3, and one that can't be opened or read with status 4.
TEXT
}

help_dump_tree() {
    cat <<'TEXT'
usage: btrfs-offline inspect-internal dump-tree [-b ADDR | -t N | -r] IMAGE [IMAGE ..]

Prints trees of a filesystem that need not be mountable: each block is read from the first of its copies, or of the ways to
rebuild it by parities, whose checksum, address and header are right. Not all devices need be given.

  -b ADDR   prints the block at this logical address, of whatever tree it is
  -t N      prints the tree of this id: 1 the root tree, 2 the extents, 3 the chunks, 4 the devices, 5 the files,
            7 the checksums, 256 and more the subvolumes
  -r        prints a line for each tree: its id, its offset, and where its root block stands
  without   prints the root tree, the chunk tree, and the tree of each ROOT_ITEM in the order of the keys

Numbers are decimal, without leading zeros. Where no copy of a block is left the text ends there, after all that comes before
it, with a line such as "error: lost block ADDR" and status 1. A filesystem whose log tree waits to be replayed is refused.
TEXT
}

help_logical_resolve() {
    cat <<'TEXT'
usage: btrfs-offline inspect-internal logical-resolve ADDR IMAGE [IMAGE ..]

Prints whose bytes are at a logical address, as "error: lost block ADDR" or a finding names it: a line for each file and for
each of its names, "tree T inode I position P path PATH", and then "owners N". T is the id of the subvolume or snapshot, and P
the position in the file in bytes; where the extent is compressed, the position at which the extent begins.

Subvolumes come by ascending id, files by inode and position. The path is that in the subvolume. It is "?" where the file has
no name, where a directory above it has not exactly one, and where it is more than 512 directories deep.

ADDR is decimal, without leading zeros. Addresses of tree blocks have no owner: dump-tree -b prints such a block. An address that
lies in no chunk is an error, "error: unmapped address ADDR", with status 1. Where no copy of a block is left the text ends there.
TEXT
}

help_scrub() {
    cat <<'TEXT'
usage: btrfs-offline scrub start [-r] IMAGE [IMAGE ..]

Reads each copy of each tree block, and of each sector of data that has a checksum, and writes the bad copies anew where a right
one is left, or where enough parity is left to rebuild them. Wrong parity is written anew too. Mirrored data without checksums gets
the newer bytes where an image missed writes and holds damaged blocks. With -r it only reads. The images of a chunk that were
written are synced before it goes on to the next chunk.

Prints one line of counts: "blocks B bad X repaired R lost L parity P unchecked U": how many blocks have a checksum, how many of
their copies are bad, with old copies of data without checksums, how many of these were written anew, of how many blocks no right
copy is left and none can be rebuilt, how many sectors of parity are wrong, and how many sectors of data have no checksum. The
status is 1 where a block is lost.

All devices must be given: "error: device N is not given", with status 3, before anything is written. Nothing is written either
where the blocks can't be listed, since a block of the trees that name them is damaged. Where an image fails it ends at once: what
was written before stands, and the block that was being written may be torn. An image that is mounted, itself or by a
loop device or a mapping over it, is refused with status 3 where it would be written.
TEXT
}

help_check() {
    cat <<'TEXT'
usage: btrfs-offline check [--check-data-csum] IMAGE [IMAGE ..]

Reads all trees of a filesystem that need not be mountable, and prints what is wrong with it: a line for each finding, in
ascending order and each once, and then "findings N", with status 1; or "no findings", with status 0. It changes nothing.

First it looks whether each block of each tree can be read, keeps the rules of the format, and has only items of the right
form. Where something is wrong there, those are all the findings. Else it looks whether the trees agree: extents with block
groups and with each other, references with what is referred to, checksums with the data of files, entries of directories
with inodes, subvolumes with their names, chunks with device extents and block groups, and the bytes that are in use.

  --check-data-csum   looks whether each sector of data that has a checksum can be read, too

Each block is read from the first of its copies, or of the ways to rebuild it by parities, whose checksum, address and header
are right, so a damaged copy of a block that another copy gives is no finding. Not all devices need be given.

It doesn't look at quotas, the free space tree and cache, the uuid tree, values of extended attributes, size and nbytes of
files, generations other than those of tree blocks, and sizes of devices.

A filesystem isn't checked where a block of its root tree is damaged, with a line such as "error: lost block ADDR" and status
1, nor where a balance is pending, a subvolume is being deleted, or the extent tree or the device tree is missing, with status
3. A filesystem whose log tree waits to be replayed is refused.
TEXT
}

help_restore() {
    cat <<'TEXT'
usage: btrfs-offline restore [-r N] [-s] [-v] [-D | -i] DEST IMAGE [IMAGE ..]
       btrfs-offline restore -l IMAGE [IMAGE ..]

Copies the directories and files of a subvolume into the folder DEST, which is made where it is missing. Nothing that is
there is overwritten: a file in the way ends the call. Not all devices need be given: each block is the first of its
copies, or of the ways to rebuild it by parities, whose checksum and header are right, and the checksum of each sector of
a file is verified. A file of which a sector has no checksum is written, and named: "unverified PATH".

  -r N   the subvolume of this id, 5 or 256 and more; without it the top one, 5
  -s     snapshots in it too; without it they are skipped
  -v     names each directory and file: "dir PATH", "file PATH"
  -D     names them, and writes nothing and reads no bytes of files
  -i     goes on past blocks that are lost. Each file is read twice, and is begun only where all of it is there. "broken
         CAUSE ADDR PATH" names an entry that is left out since the block at ADDR is lost, and "part CAUSE ADDR PATH" a
         directory of which a part is lost. The last line says how many of these there are: "directories D files F
         skipped S broken X". A block that can't be read since its image failed ends the run here too: copy such a disk
         first, as by ddrescue
  -l     prints a line for each tree, as inspect-internal dump-tree -r does; those from 256 on are subvolumes and snapshots

Options come in any order, each once, and before DEST. Entries that can't be copied are skipped and named: "skip CAUSE
PATH". Symbolic links, special files, owners, modes, times and extended attributes are not restored, and files with a
compressed or encoded extent are skipped. The last line is "directories D files F skipped S"; the status is 1 where S
or X isn't 0.

Where no copy of a block is left, and -i isn't given, all before it stands, the file that it belongs to up to that block.
The line of the error, such as "error: lost block ADDR", comes last, with status 1. Where DEST fails that is "error: the
destination failed", with status 4.
TEXT
}

help_send() {
    cat <<'TEXT'
usage: btrfs-offline send [-r N] DEST NAME IMAGE [IMAGE ..]

Writes the directories and files of a subvolume as one stream in the format of btrfs send, version 1, into the file NAME in the
folder DEST, which is made where it is missing. Nothing that is there is overwritten. Not all devices need be given, as for restore.
The stream has no inode numbers, so "btrfs receive" of btrfs-progs 6.2 doesn't take it: "attribute 3 requested but not present".

  -r N   the subvolume of this id, 5 or 256 and more; without it the top one, 5

What isn't restored isn't sent, and is named in the same way: "skip CAUSE PATH". So are subvolumes and snapshots in it, and paths
above 4095 bytes. Owners, modes, times, links and extended attributes aren't sent. NAME has 1 to 255 bytes, no "/", no "-" in
front, and isn't "." or "..". The last line is "directories D files F skipped S"; the status is 1 where S isn't 0.

Where no copy of a block is left the stream ends before it, without its end, and the line of the error comes last.
TEXT
}

help_self_test() {
    cat <<'TEXT'
usage: btrfs-offline self-test N

Makes a filesystem of N directories with four files each in memory, on three devices, and tries on it what the program does on
images: it is checked, one device is spoiled, all files are restored, it is scrubbed, another device is spoiled, and all files
are restored again. No image is opened and no folder is made. N is 1 to 1000, decimal, without leading zeros.

The first two lines say what is made. Then there is a line for each of four steps: "check: no findings", "first restore: same",
"scrub: lost 0" and "second restore: same". In their place may stand "N findings", "differs", how many blocks are lost, and
"failed" where the step was refused. The status is 1 where one of the four lines is another one: then the program doesn't do
on this machine what it promises, and should be trusted with no disk.

It shows that this program and this processor and memory do what they should on the volume that was made: metadata on two
devices, data with parity on three, CRC-32C. It shows nothing of disks, of real images, or of other profiles.
TEXT
}

# A line for each feature among these bits of incompat that isn't read: its bit in hexadecimal, and its name.
unread_features() {
    rest=$(($1 & ~0xfff))
    for feature in 1000:ZONED 2000:EXTENT_TREE_V2 4000:RAID_STRIPE_TREE 10000:SIMPLE_QUOTA; do
        bit=$((0x${feature%%:*}))
        [ $((rest & bit)) = 0 ] || echo "${feature%%:*} is ${feature##*:}, which isn't read here"
        rest=$((rest & ~bit))
    done
    [ "$rest" = 0 ] || printf '%x has no name here\n' "$rest"
}
