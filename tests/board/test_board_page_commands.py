"""Shows, in a real browser over the real program, that each command is looked at, done, and refused
once, and that a board that only looks has none."""
from __future__ import annotations

import tempfile
import unittest

from tests.support.board_run import ONE, TWO, until
from tests.support.board_page import Page

PICKED = ('O1.0', 'FINISHED')


class Gives(Page):
    """Commands by the page: each is looked at, done, and refused once."""

    def look(self, *words: str) -> None:
        """Asks what it will do, where it isn't told already, and reads it."""
        until(
            lambda: self.browser.run('return document.getElementById("command").open'),
            'the command is open',
        )
        if not self.browser.text('#command .says'):
            self.browser.press('What will it do?', '#command')
        self.assertNotIn('null', self.sees('#command', *words))

    def do(self, answer: str) -> None:
        """Does it, and reads the answer."""
        self.browser.press('Do it', '#command')
        self.sees('#command .answer', answer)
        self.assertNotIn('null', self.browser.text('#command'))
        self.browser.press('Close', '#command')

    def on_vehicle(self, title: str) -> None:
        """Presses a button of the vehicle's card."""
        if self.browser.value('.vehicle-card .head', 'aria-expanded') != 'true':
            self.browser.click('#tab-vehicles')
            self.browser.click('.vehicle-card .head')
        until(lambda: title in self.browser.text('.vehicle-card .actions button'), title)
        self.browser.press(title, '.vehicle-card')

    def on_load(self, name: str, title: str) -> None:
        """Presses a button of a load."""
        if name not in self.browser.text('.detail h2'):
            self.browser.click('#tab-stock')
            self.browser.write('#search', name)
            self.browser.press_row(name)
        self.sees('.detail', title)
        self.browser.press(title, '.detail')

    def test_loads(self) -> None:
        page = self.browser
        page.click('#tab-stock')
        page.press('Register a load', '#stock')
        page.write('#field-load', 'L 7')
        page.press('What will it do?', '#command')
        self.sees('#command', "'L 7' is no name for a load")
        page.press('Close', '#command')
        for answer in ('L7 is registered.', 'The name is taken'):
            page.press('Register a load', '#stock')
            page.write('#field-load', 'L7')
            page.write('#field-station', 'B')
            self.look('L7 is a new load, and stands at station B.')
            self.do(answer)
        self.on_the_map('station', 'Station B', '1 of 2 taken')
        self.on_load('L7', 'Correct its place')
        page.write('#field-station', 'C')
        self.look('The desk will record that L7 stands at station C. Recorded now: at B.')
        self.do('The place of L7 is corrected.')
        self.on_the_map('station', 'Station C', '1 of 1 taken')
        self.on_load('L7', 'Correct its place')
        page.write('#field-station', 'C')
        self.look('L7 is recorded there already.')
        self.do('The load is at that station already')
        self.on_load('L7', 'It leaves')
        self.look('L7 leaves the warehouse for good.')
        self.desk.add_job('J9', 'L7', 'B')
        self.do('The load has a live job')
        self.desk.stop_job('J9')
        self.on_load('L7', 'It leaves')
        self.look('L7 leaves the warehouse for good.')
        self.do('L7 has left.')
        self.on_the_map('station', 'Station C', '0 of 1 taken')
        page.write('#search', 'L7')
        page.press('Where was L7?', '#stock')
        self.sees(
            '.detail', 'L7', 'Not in the warehouse.', 'new → at B', 'at B → at C', 'at C → has left'
        )

    def test_jobs(self) -> None:
        page = self.browser
        page.click('#tab-jobs')
        for answer in ('Job J1 waits.', 'The name is taken'):
            page.press('Add a job', '#jobs')
            page.write('#field-load', 'L1')
            page.write('#field-to', 'B')
            page.write('#field-job', 'J1')
            self.look('Job J1 is to take L1 from A to B.')
            self.do(answer)
        self.sees('#jobs', 'J1', 'From A to B', 'Waits')
        page.press('Stop', '#jobs .job-card')
        self.look('Job J1 is stopped: L1 stays where it is.')
        self.desk.stop_job('J1')
        self.do("The job's phase doesn't allow it")
        self.misses('#jobs', 'J1')
        self.desk.add_job('J2', 'L1', 'B')
        self.sees('#jobs', 'J2')
        page.press('Stop', '#jobs .job-card')
        self.look('Job J2 is stopped')
        self.do('Job J2 is stopped.')
        self.sees('#jobs', 'No job waits or rides.')

    def test_an_order(self) -> None:
        page = self.browser
        self.desk.add_job('J1', 'L1', 'B')
        page.click('#tab-jobs')
        self.sees('#jobs', 'J1', 'From A to B')
        page.press('Start an order', '#jobs .job-card')
        page.write('#field-vehicle', 'KIT/0001')
        page.write('#field-edges', '9')
        page.write('#field-order', 'O1')
        self.look(
            'KIT/0001 gets the order O1:',
            'Pick L1 at A.',
            'Drop L1 at B.',
            'The order has 2 edges in all.',
        )
        page.press('Do it', '#command')
        self.sees('#command .answer', 'The order ends before that')
        page.press('Back', '#command')
        page.write('#field-edges', '1')
        self.look('Released now: 1 edge, over N2. Left then: 1.')
        self.do('KIT/0001 has the order O1.')
        self.on_vehicle('Let it drive further')
        self.look('The vehicle has not confirmed the last update.')
        self.do("The vehicle hasn't confirmed the last update")
        self.plant.state(ONE, 'N1', 'O1', 0, 0)
        self.misses('.vehicle-card', 'Not confirmed')
        self.on_vehicle('Let it drive further')
        self.look(
            'Order O1 of KIT/0001 goes on by update 1.',
            'Released now: 1 edge, over N3. Left then: 0.',
        )
        self.do('Update 1 of order O1 is sent.')
        self.sees('.vehicle-card', 'released to 2')
        self.pause_and_go_on()
        self.on_vehicle('Cancel')
        self.look('KIT/0001 is told to cancel its order O1')
        self.do('KIT/0001 is told to cancel its order (instant-3).')
        self.place_it()

    def pause_and_go_on(self) -> None:
        """Pauses the vehicle and lets it go on; meanwhile nothing else can be told to it."""
        self.on_vehicle('Pause')
        self.look('KIT/0001 is told to pause.')
        self.do('KIT/0001 is told to pause (instant-1).')
        self.sees('.vehicle-card', 'Told to pause')
        for title in ('Pause', 'Cancel'):
            self.on_vehicle(title)
            self.look('Another instant action, to pause, is not over yet.')
            self.do('An instant action is pending')
        self.plant.state(ONE, 'N1', 'O1', 1, 0, (('instant-1', 'FINISHED'),), paused=True)
        self.sees('.vehicle-card', 'Paused')
        self.on_vehicle('Go on')
        self.look('KIT/0001 is told to go on.')
        self.do('KIT/0001 is told to go on (instant-2).')
        self.on_vehicle('Go on')
        self.look('KIT/0001 is told to go on.')
        self.do('An instant action is pending')
        self.plant.state(ONE, 'N1', 'O1', 1, 0, (('instant-2', 'FINISHED'),))
        self.misses('.vehicle-card', 'Told to go on')

    def test_a_drive(self) -> None:
        """By clicks on the card of the vehicle: refused, as it stands there already, and done."""
        self.plant.vehicle(TWO, 'N4')
        self.on_the_map('node', 'Node N4', 'held by KIT/0002')
        page = self.browser
        page.write('#find-vehicle', 'KIT/0001')
        until(lambda: page.text('.vehicle-card .title') == 'KIT/0001', 'the one at N1')
        self.on_vehicle('Drive to a node')
        page.press('What will it do?', '#command')
        self.sees('#command', 'Node is missing.')
        page.write('#field-node', 'N1')
        page.write('#field-order', 'G1')
        self.look('KIT/0001 stands at node N1 already.')
        page.press('Do it', '#command')
        self.sees('#command .answer', 'No walk leads there')
        page.press('Back', '#command')
        page.write('#field-node', 'N4')
        page.press('All the way', '#command')
        self.look('Released now: 2 edges, over N2 N4.', 'KIT/0002 holds node N4.')
        page.press('Back', '#command')
        page.press('As far as it is free', '#command')
        self.look(
            'KIT/0001 drives to node N4 by the order G1, without a job.',
            'Its way: 2 edges, over N1 N2 N4.',
            'On the way KIT/0002 holds node N4.',
            'Released now: 1 edge, over N2. Left then: 1.',
        )
        self.do('KIT/0001 drives to N4 by the order G1.')
        self.sees('.vehicle-card', 'Order G1', '0 of 2 edges, released to 1', 'Drives to N4')
        self.misses('.vehicle-card .actions button', 'Drive to a node')
        page.click('#tab-events')
        self.sees('#events', 'Send KIT/0001 to node N4 by order G1', 'Order G1 of KIT/0001')

    def test_stops_by_clicks(self) -> None:
        """Jobs are added by clicks, and their stops put in order by buttons and by dragging; a drop
        stays behind its pick."""
        page = self.browser
        self.desk.add_job('J1', 'L1', 'B')
        self.desk.add_job('J2', 'L2', 'C')
        page.click('#tab-jobs')
        self.sees('#jobs', 'J1', 'J2')
        page.press('Start an order', '#jobs .job-card')

        def stops(*wanted: str) -> None:
            script = 'return document.querySelector("#field-stops").value'
            until(lambda: page.run(script) == ', '.join(wanted), ', '.join(wanted))

        self.sees('#command .stops', 'Pick L1 at A (J1)', 'Drop L1 at B (J1)')
        page.click('#command [data-job=J2]')
        stops('pick J1', 'drop J1', 'pick J2', 'drop J2')
        page.click('#command .stops li:nth-child(3) button')
        stops('pick J1', 'pick J2', 'drop J1', 'drop J2')
        page.click('#command .stops li:nth-child(4) button')
        stops('pick J1', 'pick J2', 'drop J2', 'drop J1')
        page.click('#command .stops li:nth-child(3) button')
        stops('pick J1', 'pick J2', 'drop J2', 'drop J1')
        drag = '''
            const stop = (at) => document.querySelector(`.stops li:nth-child(${at})`);
            const [from, to] = [stop(4), stop(3)];
            const dataTransfer = new DataTransfer();
            from.dispatchEvent(new DragEvent('dragstart', { dataTransfer, bubbles: true }));
            const drop = { dataTransfer, bubbles: true, cancelable: true };
            to.dispatchEvent(new DragEvent('drop', drop));
        '''
        page.run(drag)
        stops('pick J1', 'pick J2', 'drop J1', 'drop J2')
        page.click('#command .stops li:first-child button:last-child')
        stops('pick J2', 'drop J2')
        page.write('#field-vehicle', 'KIT/0001')
        page.press('All the way', '#command')
        self.look(
            'Pick L2 at A.', 'Drop L2 at C.', 'Released now: 2 edges, over N2 N4. Left then: 0.'
        )

    def test_all_are_paused(self) -> None:
        """One look and one command; vehicles are found by their names, nodes and loads."""
        self.plant.vehicle(TWO, 'N3')
        self.sees('#tab-vehicles', '2')
        self.browser.write('#find-vehicle', 'N3')
        until(lambda: self.browser.text('.vehicle-card .title') == 'KIT/0002', 'the one at N3')
        self.browser.write('#find-vehicle', 'nothing')
        self.sees('#vehicles .none', 'No vehicle was found.')
        self.browser.press('Pause all', '#vehicles')
        self.look('Told to pause. Each keeps its order and all that it holds: KIT/0001, KIT/0002.')
        self.do('Told: KIT/0001, KIT/0002.')

    def place_it(self) -> None:
        self.plant.vehicle(TWO, 'N4')
        self.on_the_map('node', 'Node N4', 'held by KIT/0002')
        self.on_vehicle('Place')
        self.browser.write('#field-node', 'N4')
        self.look('The desk will record that KIT/0001 stands at node N4', 'KIT/0002 holds node N4.')
        self.do('KIT/0002 holds node N4')
        self.on_vehicle('Place')
        self.browser.write('#field-node', 'N2')
        self.look('Its order O1 ends', 'The vehicle gets no message')
        self.do('KIT/0001 stands at N2.')
        self.sees('.vehicle-card', 'at N2')
        self.on_vehicle('Accept its states after a restart')
        self.look('The desk forgets the number of the last state of KIT/0001')
        self.do('The next state of KIT/0001 is taken, whatever its number.')
        self.on_vehicle('Accept its states after a restart')
        self.browser.press('Back', '#command')
        self.browser.write('#field-vehicle', 'KIT/0009')
        self.look('No vehicle KIT/0009 is registered.')
        self.do('No vehicle of that key')

    def test_a_stocktake(self) -> None:
        with tempfile.NamedTemporaryFile('w', suffix='.csv') as file:
            file.write('station,load\nA,L1\nB,L2\nC,L9\n')
            file.flush()
            self.browser.click('#tab-stock')
            self.browser.press('Stocktake from a file', '#stock')
            self.browser.write('#field-file', file.name)
            self.look(
                'Counted: 3 stations. Found: 3 loads.',
                'L2, which is at A, is then at B.',
                'Names that no load here has: L9.',
            )
            self.do('1 load moved. Unknown names: L9.')
        self.on_the_map('station', 'Station B', '1 of 2 taken')
        with tempfile.NamedTemporaryFile('w', suffix='.csv') as file:
            file.write('station,load\nX,L1\n')
            file.flush()
            self.browser.press('Stocktake from a file', '#stock')
            self.browser.write('#field-file', file.name)
            self.look('Line 2: there is no station X')
            self.do('No station of that name')


class LooksOnly(Page):
    words = ('--read-only',)

    def test_no_commands(self) -> None:
        self.browser.click('.vehicle-card .head')
        self.sees('.vehicle-card.chosen', 'KIT/0001')
        self.assertEqual(self.browser.text('.vehicle-card .actions button'), '')
        self.browser.click('#tab-stock')
        self.sees('#stock', 'L1')
        self.assertEqual(self.browser.text('#stock .actions button'), '')
        self.browser.click('#tab-jobs')
        self.assertEqual(self.browser.text('#jobs .actions button'), '')


if __name__ == '__main__':
    unittest.main()
