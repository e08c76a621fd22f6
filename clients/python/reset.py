"""A reset that comes in the middle of a copy of results: the service never returns, and the chip starts anew."""

from mcal import Board, WasReset

CONFIGURATION = '''
[Adc]
AdcHwUnit = [ { AdcHwUnitId = 0 } ]
[[Adc.AdcGroup]]
AdcGroupId = 0
Unit = 0
AdcGroupDefinition = [0, 1, 2, 3]
AdcGroupAccessMode = "ADC_ACCESS_MODE_SINGLE"
AdcGroupConversionMode = "ADC_CONV_MODE_ONESHOT"
AdcGroupTriggSrc = "ADC_TRIGG_SRC_SW"
[Mcu]
'''


def convert(board):
    board.Adc_Init()
    board.Adc_SetupResultBuffer(0, 0)
    for number in range(4):
        board.analog(number, 100 + number)
    board.Adc_StartGroupConversion(0)
    board.tick(64)
    board.interrupt(24)


def main():
    with Board(CONFIGURATION) as board:
        def watchdog():
            if board.peek().startswith('load'):
                board.reset('watchdog')

        board.Mcu_Init()
        print(board.Mcu_GetResetReason())
        convert(board)
        board.at_each_step(watchdog)
        try:
            board.Adc_ReadGroup(0)
        except WasReset as reset:
            print(reset)
        board.at_each_step(None)
        board.Mcu_Init()
        print(board.Mcu_GetResetReason())
        convert(board)
        values = ' '.join(map(str, board.Adc_ReadGroup(0)))
        print(f'{values}, buffer', *board.show('buffers')['adc 0 0'])


if __name__ == '__main__':
    main()
