"""A display on the serial bus: a device in Python that answers each word, and what the driver reads of it."""

from mcal import Board

CONFIGURATION = '''
[Spi]
SpiChannel = [ { SpiChannelId = 0, SpiChannelType = "IB", SpiDataWidth = 8, SpiIbNBuffers = 3, SpiDefaultData = 0 } ]
SpiJob = [ { SpiJobId = 0, Unit = 0, SpiJobPriority = 0, SpiChannelList = [0] } ]
SpiSequence = [ { SpiSequenceId = 0, SpiInterruptibleSequence = false, SpiJobAssignment = [0], SpiSeqEndNotification = "Shown" } ]
'''


class Display:
    """Shows the words that it is sent, and answers each with how many they are."""

    def __init__(self):
        self.shown = bytearray()

    def __call__(self, word):
        self.shown.append(word)
        return len(self.shown)


def main():
    display, done = Display(), []
    with Board(CONFIGURATION) as board:
        board.device(0, display)
        board.on('SpiSeqEndNotification', 0, lambda: done.append(board.Spi_GetSequenceResult(0)))
        board.Spi_Init()
        board.fill(0, 72, 105, 33)
        board.Spi_WriteIB(0, 'src')
        board.Spi_SetAsyncMode('SPI_INTERRUPT_MODE')
        board.Spi_AsyncTransmit(0)
        while not done:
            board.tick(64)
            if not board.serve():
                break
        print('shown', display.shown.decode(), 'read', *board.Spi_ReadIB(0), 'ended', *done)


if __name__ == '__main__':
    main()
