# Two rails as a script sets them with i2c-tools: PAGE, the word, and reading back, with packet error codes.
set -e
for at in "0 0x1234" "1 0x2345"; do
    set -- $at
    i2cset -y 1 0x58 0x00 "$1" bp
    i2cset -y 1 0x58 0x21 "$2" wp
    [ "$(i2cget -y 1 0x58 0x21 wp)" = "$2" ]
done
