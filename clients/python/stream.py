"""A converter that streams two inputs into a ring of four rounds, and a callback that finds the newest round in it."""

from mcal import Board

CONFIGURATION = '''
[Adc]
AdcHwUnit = [ { AdcHwUnitId = 0 } ]
[[Adc.AdcGroup]]
AdcGroupId = 0
Unit = 0
AdcGroupDefinition = [0, 1]
AdcGroupAccessMode = "ADC_ACCESS_MODE_STREAMING"
AdcGroupConversionMode = "ADC_CONV_MODE_CONTINUOUS"
AdcGroupTriggSrc = "ADC_TRIGG_SRC_SW"
AdcStreamingNumSamples = 4
AdcStreamingBufferMode = "ADC_STREAM_BUFFER_CIRCULAR"
AdcNotification = "Converted"
'''


def main():
    with Board(CONFIGURATION) as board:
        newest = []

        def converted():
            newest[:] = board.Adc_GetStreamLastPointer(0)

        board.on('AdcNotification', 0, converted)
        board.Adc_Init()
        board.Adc_SetupResultBuffer(0, 0)
        board.Adc_EnableGroupNotification(0)
        board.Adc_StartGroupConversion(0)
        for number in range(6):
            board.analog(0, 10 + number)
            board.analog(1, 20 + number)
            while not board.pending:
                board.tick(1)
            board.serve()
            rounds, place = newest
            print('rounds', rounds, 'newest at', place, 'ring', *board.show('buffers')['adc 0 0'])
        board.Adc_StopGroupConversion(0)
        print(board.Adc_GetGroupStatus(0))


if __name__ == '__main__':
    main()
