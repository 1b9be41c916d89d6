"""Two rails by Python's smbus2: PAGE, the word, and reading back, with packet error codes and three tries of each rail."""
from smbus2 import SMBus

with SMBus(1) as bus:
    bus.pec = 1
    for output, word in ((0, 0x1234), (1, 0x2345)):
        for _ in range(3):
            try:
                bus.write_byte_data(0x58, 0x00, output)
                bus.write_word_data(0x58, 0x21, word)
                if bus.read_word_data(0x58, 0x21) == word:
                    break
            except OSError:
                pass
        else:
            raise SystemExit(1)
