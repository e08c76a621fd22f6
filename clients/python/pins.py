"""Two pins that hold a number, and a callback that reads them: written one by one, it sees a number that nobody wrote."""

from mcal import Board

CONFIGURATION = '''
[Port]
PortPin = [ { PortPinId = 9, PortPinDirection = "PORT_PIN_OUT" }, { PortPinId = 10, PortPinDirection = "PORT_PIN_OUT" } ]
[Dio]
DioChannelGroup = [ { DioChannelGroupId = 0, Port = 1, DioPortOffset = 1, DioPortMask = 6 } ]
[Gpt]
GptChannelConfiguration = [ { GptChannelId = 0, GptChannelMode = "GPT_CH_MODE_CONTINUOUS", GptNotification = "Alarm" } ]
'''


def main():
    with Board(CONFIGURATION) as board:
        def alarm():
            print('read', board.Dio_ReadChannelGroup(0))

        def interrupt():
            board.tick(10)
            board.interrupt(0)

        board.on('GptNotification', 0, alarm)
        board.Port_Init()
        board.Gpt_Init()
        board.Gpt_EnableNotification(0)
        board.Gpt_StartTimer(0, 10)
        board.Dio_WriteChannelGroup(0, 1)
        board.at_each_step(interrupt)
        print('from 1 to 2, pin by pin')
        board.Dio_WriteChannel(9, 'STD_LOW')
        board.Dio_WriteChannel(10, 'STD_HIGH')
        print('from 2 to 1, as a group')
        board.Dio_WriteChannelGroup(0, 1)
        board.at_each_step(None)
        interrupt()


if __name__ == '__main__':
    main()
