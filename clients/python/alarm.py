"""An alarm that starts itself again in its callback, and whose interrupt comes at each step of the service that stops it."""

from mcal import Board, Held

CONFIGURATION = '''
[Gpt]
GptChannelConfiguration = [
  { GptChannelId = 0, GptChannelMode = "GPT_CH_MODE_ONESHOT", GptNotification = "Alarm", Level = 1 },
  { GptChannelId = 1, GptChannelMode = "GPT_CH_MODE_CONTINUOUS" } ]
'''


def placed(board, wanted):
    """The alarm's interrupt comes before step `wanted` of Gpt_StopTimer, and enters as soon as it may."""
    board.power_on()
    seen = {'alarms': 0, 'restart': 'ok', 'entered': None, 'steps': 0}

    def alarm():
        seen['alarms'] += 1
        try:
            board.Gpt_StartTimer(0, 20)
        except Held as held:
            seen['restart'] = held.cause

    def hook():
        if seen['steps'] >= wanted and seen['entered'] is None:
            try:
                board.interrupt(0)
                seen['entered'] = seen['steps']
            except Held:
                pass
        seen['steps'] += 1

    board.on('GptNotification', 0, alarm)
    board.Gpt_Init()
    board.Gpt_EnableNotification(0)
    board.Gpt_StartTimer(1, 5000)
    board.Gpt_StartTimer(0, 10)
    board.tick(10)
    board.at_each_step(hook)
    board.Gpt_StopTimer(0)
    board.at_each_step(None)
    try:
        board.interrupt(0)
    except Held:
        pass
    return seen


def main():
    with Board(CONFIGURATION) as board:
        wanted, placements = 0, []
        while True:
            seen = placed(board, wanted)
            if wanted >= seen['steps']:
                break
            entered = seen['entered']
            where = 'after the call' if entered is None else f'at step {entered}'
            placements.append(f'asked at step {wanted}: entered {where}, alarms {seen["alarms"]}, restart {seen["restart"]}')
            wanted += 1
    print('\n'.join(placements))


if __name__ == '__main__':
    main()
