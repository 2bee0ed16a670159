door_closed.
lamp_off.
robot_in_hall.
key_on_table.
