import sys


class Vector:
    def __init__(self):
        self.items = [None] * 4
        self.first = 0
        self.last = -1

    def is_empty(self):
        return self.last < self.first

    def at(self, i):
        return self.items[self.first + i]

    def add(self, item):
        if self.last + 1 == len(self.items):
            self.items += [None] * len(self.items)
        self.last += 1
        self.items[self.last] = item

    def take_first(self):
        self.first += 1
        return self.items[self.first - 1]

    def remove(self, item):
        kept = self.first - 1
        for i in range(self.first, self.last + 1):
            if self.items[i] is not item:
                kept += 1
                self.items[kept] = self.items[i]
        self.last = kept

    def __iter__(self):
        for i in range(self.first, self.last + 1):
            yield self.items[i]


class Variable:
    def __init__(self, value):
        self.value = value
        self.constraints = Vector()
        self.determined_by = None
        self.mark = 0
        self.strength = 7
        self.stays = True

    def add(self, constraint):
        self.constraints.add(constraint)

    def remove(self, constraint):
        self.constraints.remove(constraint)
        if self.determined_by is constraint:
            self.determined_by = None

    def consumers(self):
        for each in self.constraints:
            if each is not self.determined_by and each.is_satisfied():
                yield each


class Constraint:
    def __init__(self, planner, strength):
        self.planner = planner
        self.strength = strength

    def is_input(self):
        return False

    def add(self):
        self.register()
        self.planner.incrementally_add(self)

    def destroy(self):
        if self.is_satisfied():
            self.planner.incrementally_remove(self)
        else:
            self.unregister()

    def satisfy_for(self, mark):
        self.choose(mark)
        if not self.is_satisfied():
            if self.strength == 1:
                raise ValueError("a required constraint can't be satisfied")
            return None
        self.mark_inputs(mark)
        variable = self.output()
        overridden = variable.determined_by
        if overridden is not None:
            overridden.release()
        variable.determined_by = self
        if not self.planner.propagate(self, mark):
            raise ValueError('the constraints form a circle')
        variable.mark = mark
        return overridden


class UnaryConstraint(Constraint):
    def __init__(self, planner, variable, strength):
        super().__init__(planner, strength)
        self.variable = variable
        self.satisfied = False

    def output(self):
        return self.variable

    def is_satisfied(self):
        return self.satisfied

    def register(self):
        self.variable.add(self)

    def unregister(self):
        self.variable.remove(self)

    def release(self):
        self.satisfied = False

    def choose(self, mark):
        self.satisfied = self.variable.mark != mark and self.strength < self.variable.strength

    def mark_inputs(self, mark):
        pass

    def are_inputs_known(self, mark):
        return True

    def recalculate(self):
        self.variable.strength = self.strength
        self.variable.stays = not self.is_input()


class StayConstraint(UnaryConstraint):
    pass


class EditConstraint(UnaryConstraint):
    def is_input(self):
        return True

    def execute(self):
        pass


class BinaryConstraint(Constraint):
    def __init__(self, planner, first, second, strength):
        super().__init__(planner, strength)
        self.first = first
        self.second = second
        self.goes_forward = None

    def is_satisfied(self):
        return self.goes_forward is not None

    def input(self):
        return self.first if self.goes_forward else self.second

    def output(self):
        return self.second if self.goes_forward else self.first

    def register(self):
        self.first.add(self)
        self.second.add(self)

    def unregister(self):
        self.first.remove(self)
        self.second.remove(self)
        self.release()

    def release(self):
        self.goes_forward = None

    def choose(self, mark):
        if self.first.mark == mark:
            self.goes_forward = self.determines(self.second, mark, True)
        elif self.second.mark == mark:
            self.goes_forward = self.determines(self.first, mark, False)
        elif self.first.strength > self.second.strength:
            self.goes_forward = self.determines(self.first, mark, False)
        else:
            self.goes_forward = self.determines(self.second, mark, True)

    def determines(self, variable, mark, direction):
        return direction if variable.mark != mark and self.strength < variable.strength else None

    def mark_inputs(self, mark):
        self.input().mark = mark

    def are_inputs_known(self, mark):
        return self.is_known(self.input(), mark)

    def is_known(self, variable, mark):
        return variable.mark == mark or variable.stays or variable.determined_by is None

    def recalculate(self):
        source = self.input()
        target = self.output()
        target.strength = max(self.strength, source.strength)
        target.stays = self.inputs_stay()
        if target.stays:
            self.execute()

    def inputs_stay(self):
        return self.input().stays


class EqualityConstraint(BinaryConstraint):
    def execute(self):
        self.output().value = self.input().value


class ScaleConstraint(BinaryConstraint):
    def __init__(self, planner, first, scale, offset, second, strength):
        super().__init__(planner, first, second, strength)
        self.scale = scale
        self.offset = offset

    def register(self):
        super().register()
        self.scale.add(self)
        self.offset.add(self)

    def unregister(self):
        super().unregister()
        self.scale.remove(self)
        self.offset.remove(self)

    def mark_inputs(self, mark):
        super().mark_inputs(mark)
        self.scale.mark = mark
        self.offset.mark = mark

    def are_inputs_known(self, mark):
        return self.is_known(self.input(), mark) and self.is_known(self.scale, mark) and self.is_known(self.offset, mark)

    def inputs_stay(self):
        return self.input().stays and self.scale.stays and self.offset.stays

    def execute(self):
        if self.goes_forward:
            self.second.value = self.first.value * self.scale.value + self.offset.value
        else:
            self.first.value = (self.second.value - self.offset.value) // self.scale.value


class Planner:
    def __init__(self):
        self.last_mark = 0

    def new_mark(self):
        self.last_mark += 1
        return self.last_mark

    def incrementally_add(self, constraint):
        mark = self.new_mark()
        overridden = constraint.satisfy_for(mark)
        while overridden is not None:
            overridden = overridden.satisfy_for(mark)

    def incrementally_remove(self, constraint):
        output = constraint.output()
        constraint.release()
        constraint.unregister()
        unsatisfied = self.unsatisfied_below(output)
        for strength in range(1, 8):
            for each in unsatisfied:
                if each.strength == strength:
                    self.incrementally_add(each)

    def propagate(self, constraint, mark):
        todo = Vector()
        todo.add(constraint)
        while not todo.is_empty():
            following = todo.take_first()
            output = following.output()
            if output.mark == mark:
                self.incrementally_remove(constraint)
                return False
            following.recalculate()
            for each in output.consumers():
                todo.add(each)
        return True

    def unsatisfied_below(self, output):
        output.determined_by = None
        output.strength = 7
        output.stays = True
        unsatisfied = Vector()
        todo = Vector()
        todo.add(output)
        while not todo.is_empty():
            variable = todo.take_first()
            for each in variable.constraints:
                if not each.is_satisfied():
                    unsatisfied.add(each)
            for each in variable.consumers():
                each.recalculate()
                todo.add(each.output())
        return unsatisfied

    def plan_for(self, edit):
        mark = self.new_mark()
        sources = Vector()
        if edit.is_satisfied():
            sources.add(edit)
        plan = Vector()
        while not sources.is_empty():
            following = sources.take_first()
            output = following.output()
            if output.mark != mark and following.are_inputs_known(mark):
                plan.add(following)
                output.mark = mark
                for each in output.consumers():
                    sources.add(each)
        return plan


class Chain(Planner):
    def __init__(self, size):
        super().__init__()
        self.first = Variable(0)
        self.last = self.first
        for _ in range(size):
            self.add_link()
        StayConstraint(self, self.last, 4).add()

    def add_link(self):
        following = Variable(0)
        EqualityConstraint(self, self.last, following, 1).add()
        self.last = following

    def is_right(self):
        edit = EditConstraint(self, self.first, 3)
        edit.add()
        plan = self.plan_for(edit)
        for number in range(1, 101):
            self.first.value = number
            for each in plan:
                each.execute()
            if self.last.value != number:
                return False
        edit.destroy()
        return True


class Projection(Planner):
    def __init__(self, size):
        super().__init__()
        self.scale = Variable(10)
        self.offset = Variable(1000)
        self.sources = Vector()
        self.targets = Vector()
        self.size = size
        for number in range(1, size + 1):
            self.add(number)

    def add(self, number):
        source = Variable(number)
        target = Variable(number)
        self.sources.add(source)
        self.targets.add(target)
        StayConstraint(self, source, 5).add()
        ScaleConstraint(self, source, self.scale, self.offset, target, 1).add()

    def is_right(self):
        last = self.size - 1
        self.change(self.sources.at(last), 17)
        if self.targets.at(last).value != 1170:
            return False
        self.change(self.targets.at(last), 1050)
        if self.sources.at(last).value != 5:
            return False
        self.change(self.scale, 5)
        for i in range(last):
            if self.targets.at(i).value != (i + 1) * 5 + 1000:
                return False
        self.change(self.offset, 2000)
        for i in range(last):
            if self.targets.at(i).value != (i + 1) * 5 + 2000:
                return False
        return True

    def change(self, variable, value):
        edit = EditConstraint(self, variable, 3)
        edit.add()
        plan = self.plan_for(edit)
        for _ in range(10):
            variable.value = value
            for each in plan:
                each.execute()
        edit.destroy()


result = True
for _ in range(int(sys.argv[1])):
    result = result & Chain(100).is_right() & Projection(100).is_right()
print('true' if result else 'false')
