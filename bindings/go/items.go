package cqlp

import "reflect"

// putItems puts the items of a value into what is asked for most, as intoItems puts them into slices and maps of any type, and says whether it
// did, or why it cannot.
func (c *cell) putItems(to any) (bool, error) {
	e := &c.events[0]
	if e.tag != TagEnter {
		return false, nil
	}
	switch e.kind {
	case KindList, KindSet, KindTuple:
		return c.putSlice(to)
	case KindMap:
		return c.putMap(to)
	}
	return false, nil
}

func (c *cell) putSlice(to any) (bool, error) {
	switch to := to.(type) {
	case *[]string:
		return putSliceOf(c, to, takeText)
	case *[]int:
		return putSliceOf(c, to, takeInteger[int])
	case *[]int32:
		return putSliceOf(c, to, takeInteger[int32])
	case *[]int64:
		return putSliceOf(c, to, takeInteger[int64])
	}
	return false, nil
}

func (c *cell) putMap(to any) (bool, error) {
	switch to := to.(type) {
	case *map[string]string:
		return putMapOf(c, to, takeText, takeText)
	case *map[string]int:
		return putMapOf(c, to, takeText, takeInteger[int])
	case *map[string]int32:
		return putMapOf(c, to, takeText, takeInteger[int32])
	case *map[string]int64:
		return putMapOf(c, to, takeText, takeInteger[int64])
	case *map[int32]string:
		return putMapOf(c, to, takeInteger[int32], takeText)
	case *map[int64]string:
		return putMapOf(c, to, takeInteger[int64], takeText)
	}
	return false, nil
}

// ends says whether the value that began with an event ends next.
func (c *cell) ends(begin *placed) bool {
	e := &c.events[0]
	return e.tag == TagLeave && e.level == begin.level
}

// putSliceOf has as many items as the value says, as intoSlice.
func putSliceOf[T any](c *cell, to *[]T, item func(*cell) (T, error)) (done bool, err error) {
	if to == nil {
		return false, nil
	}
	typ, begin := c.typ, c.take()
	found := make([]T, begin.number)
	for at := 0; err == nil && !c.ends(begin); at++ {
		if at == len(found) {
			var none T
			found = append(found, none)
		}
		c.typ = innerOf(typ, begin.kind, at)
		found[at], err = item(c)
	}
	*to = found
	if err == nil {
		c.take()
	}
	return true, err
}

// putMapOf has the pairs before the one that cannot be put, as intoMap.
func putMapOf[K comparable, V any](c *cell, to *map[K]V, key func(*cell) (K, error), item func(*cell) (V, error)) (done bool, err error) {
	if to == nil {
		return false, nil
	}
	typ, begin := c.typ, c.take()
	found := make(map[K]V, begin.number)
	*to = found
	for !c.ends(begin) {
		c.typ = innerOf(typ, begin.kind, 0)
		k, err := key(c)
		if err != nil {
			return true, err
		}
		c.typ = innerOf(typ, begin.kind, 1)
		v, err := item(c)
		if err != nil {
			return true, err
		}
		found[k] = v
	}
	c.take()
	return true, nil
}

// takeText takes the next value, a text.
func takeText(c *cell) (string, error) {
	if e := &c.events[0]; e.tag == TagLeaf && isText(e.kind) {
		c.take()
		return string(e.content(c.from)), nil
	}
	return takeOther[string](c)
}

// takeInteger takes the next value, an integer.
func takeInteger[T int | int32 | int64](c *cell) (found T, err error) {
	if e := &c.events[0]; e.tag == TagLeaf {
		if done, err := putInteger(e, &found); done {
			c.take()
			return found, err
		}
	}
	return takeOther[T](c)
}

// takeOther takes the next value, whatever it is, where it goes into a variable of this type.
func takeOther[T any](c *cell) (T, error) {
	found := new(T)
	err := c.into(reflect.ValueOf(found).Elem())
	return *found, err
}
