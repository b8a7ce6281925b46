package main

// What a translated script stands on: the values, events and threads of a script, by Go's channels and its own select
// (reflect.Select, which is the select of the runtime with its cases as data).
//
// An event is what makes the cases of a select: a guard is called then, and a wrap is what is done with what a case gives.
// A channel is a channel without room; an M-variable is one with room for one; a mailbox is one with much room; an I-variable
// and the end of a thread are channels that are closed.
//
// A run is over once each goroutine but the one that looks stands at a channel or a select (runtime.Stack of all of them, for
// which the runtime stops them all). A thread that has not ended by then waits. Then each select is ended by its last case,
// which is never ready while the run goes on.

import (
	"fmt"
	"math/big"
	"math/rand"
	"reflect"
	"runtime"
	"strings"
	"sync"
	"time"
)

type Value interface{}
type Unit struct{}
type Text string
type Pair struct{ first, second Value }
type Function func(given []Value) Value
type Event func() []way

type way struct {
	of   reflect.SelectCase
	then func(Value) Value
}

type Thread struct {
	number int
	ended  chan Value
}
type Chan struct {
	number int
	c      chan Value
}
type Mvar struct {
	number int
	c      chan Value
}
type Mailbox struct {
	number int
	c      chan Value
}
type Ivar struct {
	number int
	permit chan bool // what the first put takes
	full   chan Value
	value  *Value
}

type fault string
type leaving struct{}
type over struct{}

func kind() Value { panic(fault("kind")) }

// A run's threads and lines

var (
	lock  sync.Mutex
	lines []string
	ends  []string
	made  map[string]int
	quit  chan Value
	left  sync.WaitGroup
)

func number(kind string) int {
	lock.Lock()
	defer lock.Unlock()
	made[kind]++
	return made[kind] - 1
}

// In half of the places no yield, in the others one to four.
func strew() {
	if rand.Intn(2) == 0 {
		return
	}
	for n := rand.Intn(4); n >= 0; n-- {
		runtime.Gosched()
	}
}

func quoted(text string) string {
	return `"` + strings.NewReplacer(`\`, `\\`, `"`, `\"`, "\n", `\n`).Replace(text) + `"`
}

func shown(value Value) string {
	switch v := value.(type) {
	case Unit:
		return "()"
	case Text:
		return quoted(string(v))
	case Pair:
		return fmt.Sprintf("(pair %s %s)", shown(v.first), shown(v.second))
	case *Thread:
		return fmt.Sprintf("(thread %d)", v.number)
	case *Chan:
		return fmt.Sprintf("(chan %d)", v.number)
	case *Mvar:
		return fmt.Sprintf("(mvar %d)", v.number)
	case *Mailbox:
		return fmt.Sprintf("(mailbox %d)", v.number)
	case *Ivar:
		return fmt.Sprintf("(ivar %d)", v.number)
	case Event:
		return "event"
	}
	return fmt.Sprint(value)
}

func printLine(value Value) Value {
	line := shown(value)
	if text, is := value.(Text); is {
		line = string(text)
	}
	lock.Lock()
	lines = append(lines, line)
	lock.Unlock()
	return Unit{}
}

func setEnd(number int, word string) {
	lock.Lock()
	ends[number] = word
	lock.Unlock()
}

func spawn(f Function, values ...Value) Value {
	lock.Lock()
	thread := &Thread{len(ends), make(chan Value)}
	ends = append(ends, "waits")
	lock.Unlock()
	left.Add(1)
	go thread.run(f, values)
	return thread
}

func (thread *Thread) run(f Function, values []Value) {
	defer left.Done()
	defer func() {
		word := "ended"
		switch why := recover().(type) {
		case nil, leaving:
		case over:
			return
		case fault:
			word = "fault " + string(why)
		default:
			word = fmt.Sprint("fault ", why)
		}
		setEnd(thread.number, word)
		close(thread.ended)
	}()
	strew()
	f(values)
}

func leave() Value { panic(leaving{}) }
func yield() Value { runtime.Gosched(); return Unit{} }

// Expressions

func numbers(a, b Value) (int64, int64) {
	n, is := a.(int64)
	m, too := b.(int64)
	if !is || !too {
		kind()
	}
	return n, m
}
func within(n *big.Int) Value {
	if !n.IsInt64() {
		panic(fault("overflow"))
	}
	return n.Int64()
}
func add(a, b Value) Value {
	n, m := numbers(a, b)
	return within(new(big.Int).Add(big.NewInt(n), big.NewInt(m)))
}
func subtract(a, b Value) Value {
	n, m := numbers(a, b)
	return within(new(big.Int).Sub(big.NewInt(n), big.NewInt(m)))
}
func multiply(a, b Value) Value {
	n, m := numbers(a, b)
	return within(new(big.Int).Mul(big.NewInt(n), big.NewInt(m)))
}
func less(a, b Value) Value { n, m := numbers(a, b); return n < m }
func isTrue(a Value) bool {
	truth, is := a.(bool)
	if !is {
		kind()
	}
	return truth
}
func negated(a Value) Value { return !isTrue(a) }
func pairOf(a Value) Pair {
	pair, is := a.(Pair)
	if !is {
		kind()
	}
	return pair
}
func first(a Value) Value      { return pairOf(a).first }
func second(a Value) Value     { return pairOf(a).second }
func pair(a, b Value) Value    { return Pair{a, b} }
func same(a, b Value) Value    { return shown(a) == shown(b) }

// Events

func event(value Value) Event {
	e, is := value.(Event)
	if !is {
		kind()
	}
	return e
}

func wait(value Value) Value {
	ways := event(value)()
	cases := make([]reflect.SelectCase, 0, len(ways)+1)
	for _, way := range ways {
		cases = append(cases, way.of)
	}
	cases = append(cases, reflect.SelectCase{Dir: reflect.SelectRecv, Chan: reflect.ValueOf(quit)})
	taken, got, _ := reflect.Select(cases)
	if taken == len(ways) {
		panic(over{})
	}
	var given Value
	if got.IsValid() {
		given = got.Interface()
	}
	return ways[taken].then(given)
}

func one(of reflect.SelectCase, then func(Value) Value) Value {
	return Event(func() []way { return []way{{of, then}} })
}
func from(c chan Value, then func(Value) Value) Value {
	return one(reflect.SelectCase{Dir: reflect.SelectRecv, Chan: reflect.ValueOf(c)}, then)
}
func asGiven(value Value) Value { return value }
func unit(Value) Value          { return Unit{} }

func never() Value { return Event(func() []way { return nil }) }
func always(value Value) Value {
	return Event(func() []way {
		c := make(chan Value, 1)
		c <- value
		return event(from(c, asGiven))()
	})
}
func choose(events ...Value) Value {
	for _, e := range events {
		event(e)
	}
	return Event(func() (ways []way) {
		for _, e := range events {
			ways = append(ways, event(e)()...)
		}
		return ways
	})
}
func wrap(value Value, f Function, values ...Value) Value {
	of := event(value)
	return Event(func() []way {
		ways := append([]way{}, of()...)
		for place := range ways {
			inner := ways[place].then
			ways[place].then = func(got Value) Value {
				x := inner(got)
				strew()
				return f(append(append([]Value{}, values...), x))
			}
		}
		return ways
	})
}
func guard(f Function, values ...Value) Value {
	return Event(func() []way { strew(); return event(f(values))() })
}
func send(channel, value Value) Value {
	c, is := channel.(*Chan)
	if !is {
		kind()
	}
	boxed := reflect.ValueOf(&value).Elem()
	return one(reflect.SelectCase{Dir: reflect.SelectSend, Chan: reflect.ValueOf(c.c), Send: boxed}, unit)
}
func recv(channel Value) Value {
	c, is := channel.(*Chan)
	if !is {
		kind()
	}
	return from(c.c, asGiven)
}
func join(value Value) Value {
	thread, is := value.(*Thread)
	if !is {
		kind()
	}
	return from(thread.ended, unit)
}
func iget(variable Value) Value {
	i, is := variable.(*Ivar)
	if !is {
		kind()
	}
	return from(i.full, func(Value) Value { return *i.value })
}
func mtake(variable Value) Value {
	m, is := variable.(*Mvar)
	if !is {
		kind()
	}
	return from(m.c, asGiven)
}
func mailrecv(mailbox Value) Value {
	b, is := mailbox.(*Mailbox)
	if !is {
		kind()
	}
	return from(b.c, asGiven)
}

// Objects

func newChan() Value    { return &Chan{number("chan"), make(chan Value)} }
func newMailbox() Value { return &Mailbox{number("mailbox"), make(chan Value, 4096)} }
func newIvar() Value {
	i := &Ivar{number("ivar"), make(chan bool, 1), make(chan Value), new(Value)}
	i.permit <- true
	return i
}
func newMvar(values ...Value) Value {
	m := &Mvar{number("mvar"), make(chan Value, 1)}
	for _, value := range values {
		m.c <- value
	}
	return m
}
func iput(variable, value Value) Value {
	i, is := variable.(*Ivar)
	if !is {
		kind()
	}
	select {
	case <-i.permit:
	default:
		panic(fault("put"))
	}
	*i.value = value
	close(i.full)
	return Unit{}
}
func mput(variable, value Value) Value {
	m, is := variable.(*Mvar)
	if !is {
		kind()
	}
	select {
	case m.c <- value:
	default:
		panic(fault("put"))
	}
	return Unit{}
}
func mail(mailbox, value Value) Value {
	b, is := mailbox.(*Mailbox)
	if !is {
		kind()
	}
	b.c <- value
	return Unit{}
}

// Runs. Each is told by one line of JSON.

// Whether no goroutine but this one can go on.
func idle() bool {
	all := make([]byte, 1<<20)
	stacks := string(all[:runtime.Stack(all, true)])
	for _, stack := range strings.Split(stacks, "\n\n")[1:] {
		state := stack[strings.Index(stack, "[")+1:]
		if !strings.HasPrefix(state, "chan ") && !strings.HasPrefix(state, "select") {
			return false
		}
	}
	return true
}

func listed(words []string) string {
	all := make([]string, len(words))
	for place, word := range words {
		all[place] = quoted(word)
	}
	return "[" + strings.Join(all, ",") + "]"
}

func runOften(times int, seed int64, main Function) {
	rand.Seed(seed)
	for ; times > 0; times-- {
		lines, ends, made, quit = nil, nil, map[string]int{}, make(chan Value)
		spawn(main)
		for !idle() {
			time.Sleep(20 * time.Microsecond)
		}
		fmt.Printf("{\"lines\":%s,\"threads\":%s}\n", listed(lines), listed(ends))
		close(quit)
		left.Wait()
	}
}
