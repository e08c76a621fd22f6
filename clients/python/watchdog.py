"""A watchdog that a task feeds in time, and whose time ends in a callback above the very call that was to feed it."""

from mcal import Board, WasReset

CONFIGURATION = '''
[Gpt]
GptChannelConfiguration = [ { GptChannelId = 0, GptChannelMode = "GPT_CH_MODE_ONESHOT", GptNotification = "Alarm" } ]
[Wdg]
WdgDefaultMode = "WDGIF_FAST_MODE"
InitialTicks = 100
'''


def run(board):
    board.Wdg_Init()
    board.Gpt_Init()
    for _ in range(5):
        board.tick(90)
        board.Wdg_SetTriggerCondition(100)
    print('fed 5 times')
    board.Gpt_EnableNotification(0)
    board.Gpt_StartTimer(0, 50)
    board.tick(50)
    board.at_each_step(board.serve)
    board.Wdg_SetTriggerCondition(100)


def main():
    with Board(CONFIGURATION) as board:
        def alarm():
            print('a callback that takes too long')
            board.tick(200)

        board.on('GptNotification', 0, alarm)
        try:
            run(board)
        except WasReset as reset:
            print(reset)
        board.at_each_step(None)
        board.Mcu_Init()
        print(board.Mcu_GetResetReason())


if __name__ == '__main__':
    main()
