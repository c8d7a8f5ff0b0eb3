"""A state with each member that the public schema of VDA 5050 2.0 has, and the same as the desk
is to be told."""
from __future__ import annotations

from typing import Any

# The members of a state in VDA 5050 2.0 that the desk is told as they come.
SAME: dict[str, Any] = {
    'headerId': 1,
    'timestamp': '2023-11-14T22:13:19.50Z',
    'version': '2.0.0',
    'manufacturer': 'KIT',
    'serialNumber': '0001',
    'orderId': '',
    'orderUpdateId': 0,
    'zoneSetId': 'Z1',
    'lastNodeId': 'N1',
    'lastNodeSequenceId': 0,
    'driving': True,
    'paused': False,
    'newBaseRequest': False,
    'actionStates': [
        {
            'actionId': 'x',
            'actionType': 'beep',
            'actionDescription': 'a sound',
            'actionStatus': 'FINISHED',
            'resultDescription': 'done',
        }
    ],
    'operatingMode': 'AUTOMATIC',
    'errors': [
        {
            'errorType': 'scanner',
            'errorReferences': [{'referenceKey': 'nodeId', 'referenceValue': 'N1'}],
            'errorDescription': 'dirty',
            'errorLevel': 'WARNING',
        }
    ],
    'information': [
        {
            'infoType': 'note',
            'infoReferences': [{'referenceKey': 'a', 'referenceValue': 'b'}],
            'infoDescription': 'a note',
            'infoLevel': 'INFO',
        }
    ],
    'safetyState': {'eStop': 'NONE', 'fieldViolation': False},
}

# Each member that the public schema of a state has.
STATE: dict[str, Any] = {
    **SAME,
    'nodeStates': [
        {
            'nodeId': 'N2',
            'sequenceId': 2,
            'nodeDescription': 'a node',
            'released': True,
            'nodePosition': {'x': 1.5, 'y': -2.25, 'theta': 0.0, 'mapId': 'M'},
        }
    ],
    'edgeStates': [
        {
            'edgeId': 'E12',
            'sequenceId': 1,
            'edgeDescription': 'an edge',
            'released': True,
            'trajectory': {
                'degree': 1,
                'knotVector': [0.0, 0.0, 1.0, 1.0],
                'controlPoints': [{'x': 0.1, 'y': 0.2, 'weight': 1.0}, {'x': 1.5, 'y': 2.5}],
            },
        }
    ],
    'agvPosition': {
        'x': 1.25,
        'y': 2.5,
        'theta': 0.5,
        'mapId': 'M',
        'mapDescription': 'a map',
        'positionInitialized': True,
        'localizationScore': 0.9,
        'deviationRange': 0.1,
    },
    'velocity': {'vx': 0.5, 'vy': 0.0, 'omega': -0.1},
    'loads': [
        {
            'loadId': 'L7',
            'loadType': 'pallet',
            'loadPosition': 'front',
            'weight': 12.5,
            'boundingBoxReference': {'x': 0.5, 'y': 1.5, 'z': 2.5, 'theta': -0.0},
            'loadDimensions': {'length': 1.2, 'width': 0.8, 'height': 1e0},
        }
    ],
    'distanceSinceLastNode': 3.75,
    'batteryState': {
        'batteryCharge': 80.5,
        'batteryVoltage': 48.6,
        'batteryHealth': 99,
        'charging': False,
        'reach': 1200,
    },
}

# The same as the desk is to be told: no positions, and each number the nearest whole one, the even
# one of two.
TOLD: dict[str, Any] = {
    **SAME,
    'nodeStates': [
        {'nodeId': 'N2', 'sequenceId': 2, 'nodeDescription': 'a node', 'released': True}
    ],
    'edgeStates': [
        {'edgeId': 'E12', 'sequenceId': 1, 'edgeDescription': 'an edge', 'released': True}
    ],
    'loads': [
        {
            'loadId': 'L7',
            'loadType': 'pallet',
            'loadPosition': 'front',
            'weight': 12,
            'boundingBoxReference': {'x': 0, 'y': 2, 'z': 2, 'theta': 0},
            'loadDimensions': {'length': 1, 'width': 1, 'height': 1},
        }
    ],
    'distanceSinceLastNode': 4,
    'batteryState': {
        'batteryCharge': 80,
        'batteryVoltage': 49,
        'batteryHealth': 99,
        'charging': False,
        'reach': 1200,
    },
}
