"""What a test of one's own looks like: run it by pytest, or as it stands."""

from mcal import Board, Held, WasReset

WAITING = '''
[Gpt]
GptChannelConfiguration = [ { GptChannelId = 0, GptChannelMode = "GPT_CH_MODE_CONTINUOUS" } ]
[Spi]
SyncUnits = [0]
SpiChannel = [ { SpiChannelId = 0, SpiChannelType = "IB", SpiDataWidth = 8, SpiIbNBuffers = 2, SpiDefaultData = 0 } ]
SpiJob = [ { SpiJobId = 0, Unit = 0, SpiJobPriority = 0, SpiChannelList = [0] } ]
SpiSequence = [ { SpiSequenceId = 0, SpiInterruptibleSequence = false, SpiJobAssignment = [0] } ]
'''


def test_time_goes_by():
    with Board() as board:
        board.Gpt_Init()
        board.Gpt_StartTimer(0, 100)
        board.tick(30)
        assert board.Gpt_GetTimeElapsed(0) == 30


def test_an_error_is_reported():
    errors = []
    with Board() as board:
        board.on_error(lambda service, error, runtime: errors.append((service, error, runtime)))
        board.Gpt_StartTimer(0, 100)
        assert errors == [('Gpt_StartTimer', 'GPT_E_UNINIT', False)]


def test_an_interrupt_waits_for_the_window():
    causes = []

    def hook():
        try:
            board.interrupt(0)
        except Held as held:
            causes.append(held.cause)

    with Board() as board:
        board.Gpt_Init()
        board.at_each_step(hook)
        board.Gpt_GetTimeElapsed(0)
        assert 'masked' in causes


def test_a_call_waits_for_the_bus():
    with Board(WAITING) as board:
        board.device(0, lambda word: word + 1)
        board.Gpt_Init()
        board.Gpt_StartTimer(0, 1000)
        board.Spi_Init()
        board.fill(0, 3, 4)
        board.Spi_WriteIB(0, 'src')
        assert board.Spi_SyncTransmit(0) == 'E_OK'
        assert board.Spi_ReadIB(0) == ['E_OK', 4, 5]
        assert board.Gpt_GetTimeElapsed(0) == 16        # two words of 8 ticks


def test_a_reset_drops_the_service():
    def hook():
        if board.masked:
            board.reset('watchdog')

    with Board() as board:
        board.Gpt_Init()
        board.at_each_step(hook)
        try:
            board.Gpt_StartTimer(0, 100)
            assert False, 'it returned'
        except WasReset as reset:
            assert (reset.reason, reset.dropped) == ('MCU_WATCHDOG_RESET', 1)
        assert board.depth == 0


if __name__ == '__main__':
    for name, test in list(globals().items()):
        if name.startswith('test_'):
            test()
            print(name, 'ok')
