"""The definition: motion by climbing to the root, wrenches by descending from a link."""

from .floats import ZERO, cross, dot, inverse, matrix, on, plus, product, times, turn

EARTH = (0.0, 0.0, 9.80665)


def wrench_sum(a, b):
    """The sum of two wrenches."""
    return (plus(a[0], b[0]), plus(a[1], b[1]))


class Tree:
    """One accepted call; each value is worked out when it is asked for and kept."""

    def __init__(self, case, sums):
        """Keeps the call, its load sums and each link's children in falling joint number."""
        self.case, self.sums = case, sums
        self.rotation = case.base[:4]
        self.children = [[] for _ in range(case.count)]
        for j in reversed(range(case.count - 1)):
            self.children[case.parents[j]].append(j)
        self.frames, self.motions = {}, {}
        self.motion_at = self.gravity_at if case.function == 2 else self.newton_at
        self.own = self.gravity_own if case.function == 2 else self.newton_own

    def frame(self, j):
        """The joint transform: rotation and translation."""
        if j not in self.frames:
            self.frames[j] = self.joint_frame(j)
        return self.frames[j]

    def joint_frame(self, j):
        """The joint transform from its origin and its pose entry."""
        case = self.case
        floats, kind = case.joints[j], case.kinds[j]
        rotation, translation, axis = floats[:4], floats[4:7], floats[7:]
        if kind == 1:
            _, s, c = case.poses[case.numbers[j]]
            half = (c, s * axis[0], s * axis[1], s * axis[2])
            return product(rotation, half), translation
        if kind == 2:
            _, distance, _ = case.poses[case.numbers[j]]
            return rotation, plus(translation, turn(rotation, times(distance, axis)))
        return rotation, translation

    def motion(self, link):
        """A link's motion, from its parent's."""
        if link not in self.motions:
            self.motions[link] = self.motion_at(link)
        return self.motions[link]

    def gravity_at(self, link):
        """Gravity in a link's frame, turned by the quaternion."""
        if link == 0:
            return turn(inverse(self.rotation), EARTH)
        rotation, _ = self.frame(link - 1)
        return turn(inverse(rotation), self.motion(self.case.parents[link - 1]))

    def root_motion(self):
        """The root's angular velocity, angular and linear acceleration."""
        case, back = self.case, inverse(self.rotation)
        floating = case.mode == 1
        velocity = case.base[7:10] if floating else ZERO
        if case.function == 3:
            return turn(back, velocity), turn(back, ZERO), turn(back, plus(ZERO, ZERO))
        angular = case.base[13:16] if floating else ZERO
        linear = case.base[16:19] if floating else ZERO
        return turn(back, velocity), turn(back, angular), turn(back, plus(EARTH, linear))

    def newton_at(self, link):
        """A link's angular velocity, angular and linear acceleration."""
        if link == 0:
            return self.root_motion()
        case, j = self.case, link - 1
        w, e, a = self.motion(case.parents[j])
        rotation, p = self.frame(j)
        rows = matrix(inverse(rotation))
        a = on(rows, plus(plus(a, cross(e, p)), cross(w, cross(w, p))))
        w, e = on(rows, w), on(rows, e)
        if case.kinds[j] == 0:
            return w, e, a
        axis, number = case.joints[j][7:], case.numbers[j]
        v = case.speeds[number]
        d = case.accelerations[number] if case.function == 1 else 0.0
        if case.kinds[j] == 1:
            spin = times(v, axis)
            return plus(w, spin), plus(plus(e, times(d, axis)), cross(w, spin)), a
        return w, e, plus(plus(a, times(d, axis)), times(2.0 * v, cross(w, axis)))

    def gravity_own(self, link):
        """A link's own wrench under gravity."""
        row = self.case.links[link]
        force = times(row[0], self.motion(link))
        return cross(row[1:4], force), force

    def newton_own(self, link):
        """A link's own wrench in motion."""
        row = self.case.links[link]
        c, inertia = row[1:4], (row[4:7], row[7:10], row[10:13])
        w, e, a = self.motion(link)
        force = times(row[0], plus(plus(a, cross(e, c)), cross(w, cross(w, c))))
        torque = plus(plus(cross(c, force), on(inertia, e)), cross(w, on(inertia, w)))
        return torque, force

    def carried(self, j):
        """A joint's child total, carried to the parent link; the figure is kept on the way."""
        torque, force = self.total(j + 1)
        self.keep_figure(j, torque, force)
        rotation, p = self.frame(j)
        force = turn(rotation, force)
        return plus(turn(rotation, torque), cross(p, force)), force

    def keep_figure(self, j, torque, force):
        """The figure of a moving joint, put at its number."""
        case = self.case
        if case.kinds[j] != 0:
            half = torque if case.kinds[j] == 1 else force
            self.joint_figures[case.numbers[j]] = dot(half, case.joints[j][7:])

    def total(self, link):
        """A link's load sum, then each child's total, then its own; the root's own comes second."""
        wrench = self.sums[link]
        if link == 0:
            wrench = wrench_sum(wrench, self.own(link))
        for j in self.children[link]:
            wrench = wrench_sum(wrench, self.carried(j))
        return wrench if link == 0 else wrench_sum(wrench, self.own(link))

    def figures(self):
        """The output: six root figures in floating mode, then the joint figures."""
        self.joint_figures = [0.0] * self.case.moving
        torque, force = self.total(0)
        if self.case.mode == 0:
            return self.joint_figures
        return [*turn(self.rotation, torque), *turn(self.rotation, force), *self.joint_figures]
