package main

import (
	"context"
	"errors"
	"fmt"
	"os"
	"strings"
	"syscall"

	"dsmdb/server/batch"
	"dsmdb/server/ends"
	"dsmdb/server/engine"
	"dsmdb/server/order"
	"dsmdb/server/site"
)

// openDatabase makes the database that goes on in the newest order whose settings are kept here, else in the first one, over
// the settings that the words name.
func (s *server) openDatabase(settings []byte) error {
	options := site.Options{
		Settings: settings, Number: 1, Maker: s.folder.Maker(), Patience: s.patience, Overrule: s.overrule, Say: s.log.say, Warn: s.log.warn,
		Rolls: site.Rolls{At: s.rollAt, Keep: s.keep, Save: s.saveSettings, Step: s.step},
	}
	earlier, err := s.newest(&options)
	if err != nil {
		return fmt.Errorf("finding the newest order: %w", err)
	}
	if s.layout != nil {
		if err := s.layout.Check(options.Settings); err != nil {
			return fmt.Errorf("%s: %w", s.serveOptions.layout, err)
		}
	}
	if err := s.checkRolls(&options); err != nil {
		return err
	}
	if s.place, options.Alone, err = s.openPlace(); err != nil {
		return err
	}
	if options.Joins && options.Alone {
		return words("%s has settings of order %d that were fetched from a server over etcd, so --etcd is wanting", s.data, options.Number)
	}
	s.database = site.NewDatabase(site.DatabaseOptions{Site: options, Open: s.openOrder, Start: s.startEngine, Earlier: earlier})
	return nil
}

// newest has a site begin with the newest order whose settings are kept, and returns the orders before.
func (s *server) newest(options *site.Options) ([]site.Span, error) {
	found, err := s.folder.KeptSettings()
	if err != nil {
		return nil, err
	}
	var spans []site.Span
	if first := ends.Read(options.Settings); len(found) > 0 && first.Origin != nil {
		spans = append(spans, site.Span{Number: 1, Before: first.Origin.Strings})
	}
	for _, number := range found {
		head, err := s.folder.SettingsHead(number)
		if err != nil {
			return nil, err
		}
		if known := ends.Read(head); known.Origin != nil {
			spans = append(spans, site.Span{Number: number, Before: known.Origin.Strings})
		}
	}
	if len(found) > 0 {
		spans = spans[:len(spans)-1]
		err = s.goOn(options, found[len(found)-1])
	} else {
		err = s.folder.BeginFirst()
	}
	if err != nil {
		return nil, err
	}
	options.Rolls.Began, err = s.folder.BegunAt(options.Number)
	return spans, err
}

// goOn has a site begin with an order whose settings are kept, where those that the words name are of no other database.
func (s *server) goOn(options *site.Options, number uint64) error {
	kept, err := s.folder.Settings(number)
	if err != nil {
		return err
	}
	if named, own := ends.Read(options.Settings).Of, ends.Read(kept).Of; named != (batch.ID{}) && named != own {
		return words("%s is of database %x, and %s of database %x: take another folder", s.settings, named, s.data, own)
	}
	options.Number, options.Settings = number, kept
	s.log.say("goes on in order %d: its settings are in %s, and %s was for the first order", number, s.data, s.settings)
	options.Joins, err = s.folder.WereFetched(number)
	return err
}

// checkRolls returns why orders can't end as the words say.
func (s *server) checkRolls(options *site.Options) error {
	if s.rollAt > 0 && ends.Read(options.Settings).Origin == nil {
		return words("--roll-at: the settings have no `origin`, so the order can't end: docs/SITES.md says how such a database goes on")
	}
	return nil
}

// openPlace opens where the orders lie; alone is whether no other server appends there.
func (s *server) openPlace() (place order.Place, alone bool, err error) {
	name, err := s.memberName()
	if err != nil {
		return nil, false, err
	}
	if name != "" || s.etcd.place != "" {
		place, err := s.openEtcd(name)
		if err != nil {
			return nil, false, fmt.Errorf("the order in etcd: %w", err)
		}
		return place, false, nil
	}
	return order.InFolder(s.folder), true, nil
}

// openOrder opens the order of a number.
func (s *server) openOrder(number uint64, of batch.ID, vote func() batch.Vote) (order.Order, error) {
	return s.place.Open(number, order.Maker{ID: s.folder.Maker(), Version: version, Database: of, Vote: vote})
}

func (s *server) startEngine(ctx context.Context, number uint64, settings []byte) (site.Engine, error) {
	started, err := engine.Start(ctx, s.engine, settings)
	var fault *engine.SettingsFault
	if errors.As(err, &fault) {
		name := s.settings
		if number > 1 {
			name = fmt.Sprintf("the settings of order %d in %s", number, s.data)
		}
		return nil, fmt.Errorf("%s: %s: `dsmdb explain %s` says what is wrong", name, fault.Text, lastWord(fault.Text))
	}
	if err != nil {
		return nil, err
	}
	return started, nil
}
func lastWord(text string) string {
	fields := strings.Fields(text)
	return fields[len(fields)-1]
}

// saveSettings keeps the settings of the next order.
func (s *server) saveSettings(number uint64, settings []byte) error {
	return s.folder.SaveSettings(number, settings)
}

// step ends the process where a test has asked for that.
func (s *server) step(name string) {
	if name == s.dieAt {
		syscall.Kill(os.Getpid(), syscall.SIGKILL)
		select {}
	}
}

// forget deletes the orders below a number, and their settings, where this server goes on without them.
func (s *server) forget(ctx context.Context, below uint64) ([]uint64, error) {
	found, is := s.database.Snapshot()
	switch {
	case !is:
		return nil, errors.New("the server is ending")
	case below > found.Order:
		return nil, fmt.Errorf("this server is at order %d, and has no settings of order %d", found.Order, below)
	case found.Silent:
		return nil, errors.New("other servers came to other answers than this one, who may be in the wrong")
	case below == found.Order && found.End == found.Before:
		return nil, fmt.Errorf("order %d has no string yet", below)
	}
	deleted, err := s.place.Forget(ctx, below)
	if err != nil {
		return deleted, err
	}
	return deleted, s.folder.ForgetSettings(below)
}
