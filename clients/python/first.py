"""A callback of one's own, and its interrupt at each step of a service."""

from mcal import Board, Held

CONFIGURATION = '''
[Gpt]
GptChannelConfiguration = [ { GptChannelId = 0, GptChannelMode = "GPT_CH_MODE_ONESHOT", GptNotification = "Alarm" } ]
'''

with Board(CONFIGURATION) as board:
    steps = 0

    def alarm():
        print('alarm')
        board.Gpt_StartTimer(0, 20)

    def interrupt():
        global steps
        steps += 1
        try:
            board.interrupt(0)
            print('entered before step', steps)
        except Held as held:
            print('held before step', steps, 'as', held.cause)

    board.on('GptNotification', 0, alarm)
    board.Mcu_Init()
    board.Gpt_Init()
    board.Gpt_EnableNotification(0)
    board.Gpt_StartTimer(0, 100)
    board.tick(100)
    board.at_each_step(interrupt)
    print(board.Mcu_GetResetReason())
