# Completions of jpgsuite and its commands: completions/make wrote this from completions/table.
set -g __jpgsuite_commands \
    'jpegtran'\t'mirrors, transposes, rotates and crops a JPEG without loss' \
    'djpeg'\t'writes the picture of a JPEG as PNM, BMP or Targa' \
    'cjpeg'\t'encodes an image, PNM, BMP or Targa, as JPEG' \
    'rdjpgcom'\t'prints the comments of a JPEG' \
    'wrjpgcom'\t'inserts a comment into a JPEG'
set -g __jpgsuite_alone \
    '--help'\t'lists the switches' \
    '--version'\t'prints the version'
set -g __jpgsuite_rows \
    'jpegtran -copy 1 none,comments,all which comments and application segments are copied' \
    'jpegtran -crop 2 TEXT the area that is cut out, as 320x240+16+0' \
    'jpegtran -flip 1 horizontal,vertical mirrors the picture' \
    'jpegtran -rotate 2 90,180,270 rotates the picture clockwise' \
    'jpegtran -transpose 1 - mirrors at the diagonal from the upper left' \
    'jpegtran -transverse 6 - mirrors at the other diagonal' \
    'jpegtran -upright 1 - turns the picture as its Exif orientation asks for it' \
    'jpegtran -trim 3 - leaves out partial MCUs that would remain at the edge' \
    'jpegtran -grayscale 1 - keeps only the first component' \
    'jpegtran -greyscale 1 - keeps only the first component' \
    'jpegtran -progressive 1 - writes progressive scans' \
    'jpegtran -scans 1 FILE the file of the scan script' \
    'jpegtran -huffman 1 plain,fitted which Huffman tables the scans have' \
    'jpegtran -restart 1 TEXT the restart interval in rows of MCUs, or in MCUs with a B after the number' \
    'jpegtran -outfile 4 FILE the file to write' \
    'djpeg -pnm 1 - writes PNM, the default' \
    'djpeg -ppm 1 - writes PNM, the default' \
    'djpeg -bmp 1 - writes BMP' \
    'djpeg -targa 1 - writes Targa' \
    'djpeg -grayscale 2 - writes only the first component' \
    'djpeg -greyscale 2 - writes only the first component' \
    'djpeg -nosmooth 3 - repeats samples' \
    'djpeg -dct 2 int the arithmetic' \
    'djpeg -scale 1 1/1 the size' \
    'djpeg -outfile 4 FILE the file to write' \
    'djpeg -preview 3 TEXT how many scans are shown, from 1 to 65535' \
    'cjpeg -targa 1 - reads a Targa file' \
    'cjpeg -quality 1 TEXT the quality, from 0 to 100' \
    'cjpeg -grayscale 2 - encodes only the luminance' \
    'cjpeg -greyscale 2 - encodes only the luminance' \
    'cjpeg -baseline 1 - lets no quantiser exceed 255' \
    'cjpeg -progressive 1 - writes progressive scans' \
    'cjpeg -scans 4 FILE the file of the scan script' \
    'cjpeg -huffman 1 plain,fitted which Huffman tables the scans have' \
    'cjpeg -restart 1 TEXT the restart interval in rows of MCUs, or in MCUs with a B after the number' \
    'cjpeg -sample 2 TEXT the sampling factors, as 2x2 or 1x1 or 2x1' \
    'cjpeg -qtables 2 FILE the file that has the quantisers' \
    'cjpeg -dct 2 int the arithmetic' \
    'cjpeg -outfile 4 FILE the file to write' \
    'wrjpgcom -replace 1 - leaves out the comments that are there' \
    'wrjpgcom -comment 1 TEXT the comment' \
    'wrjpgcom -cfile 2 FILE the file of the comment'

# What the value of a switch is: names, FILE, TEXT, or - if it takes none. A word means a switch as in the commands: a
# prefix of its name that has at least its shortest form, in either case.
function __jpgsuite_value --argument-names tool word
    set -l word (string lower -- $word)
    set -l letters (string length -- $word)
    for row in $__jpgsuite_rows
        set -l row (string split -m 4 ' ' -- $row)
        if test $row[1] = $tool -a $letters -gt $row[3]; and test (string sub -l $letters -- $row[2]) = $word
            echo $row[4]
            return
        end
    end
    echo -
end

# What is offered at the word, each with its description after a tabulator.
function __jpgsuite_offered
    set -l before (commandline -opc)
    set -l word (commandline -ct)
    set -l tool (string replace -r '.*/' '' -- $before[1])
    # Another program of the same name has other switches.
    if test $tool != jpgsuite; and not string match -qr '/jpgsuite$' -- (realpath -- (command -s -- $before[1]) 2> /dev/null)
        __fish_complete_path $word
        return
    end
    if test $tool = jpgsuite
        if test (count $before) = 1
            printf '%s\n' $__jpgsuite_commands $__jpgsuite_alone
            return
        end
        set tool $before[2]
        set -e before[1]
    end
    # Which value is expected at the word, if any, and whether a file was named before it.
    set -l value -
    set -l taken no
    for it in $before[2..-1]
        if test $value != -
            set value -
        else if contains -- $it --help --version
            set taken yes
        else if string match -q -- '-*' $it
            set value (__jpgsuite_value $tool $it)
        else
            set taken yes
        end
    end
    if test $taken = yes -o $value = TEXT
        return
    else if test $value = FILE
        __fish_complete_path $word
    else if test $value != -
        string split , -- $value
    else if string match -q -- '-*' $word
        for row in $__jpgsuite_rows
            set -l row (string split -m 4 ' ' -- $row)
            test $row[1] = $tool; and printf '%s\t%s\n' $row[2] $row[5]
        end
        test (count $before) = 1; and printf '%s\n' $__jpgsuite_alone
    else
        __fish_complete_path $word
    end
end

for tool in jpgsuite (string replace -r '\t.*' '' -- $__jpgsuite_commands)
    complete -c $tool -e
    complete -c $tool -f -a '(__jpgsuite_offered)'
end
